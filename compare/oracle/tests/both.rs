//! The two builds of the reference beside each other.

use bounded::bounds::noting;
use msft_typelib::inputs::table_ends::End;

/// What the reference answers to the questions about the libraries of `table_ends`, as it is and kept to its
/// tables: the same where nothing was cut; else it reads a record that the other does not.
#[test]
fn the_two_differ_where_a_read_was_cut_and_nowhere_else() {
    let kept = bounded::inputs::table_ends::all();
    let as_it_is = msft_typelib::inputs::table_ends::all();
    for (kept, as_it_is) in kept.zip(as_it_is) {
        let (bytes, name) = (&as_it_is.input.bytes, &as_it_is.input.name);
        assert_eq!(kept.input.bytes, *bytes);
        for (one, two) in kept.questions.iter().zip(&as_it_is.questions) {
            let (told, notes) = noting(|| bounded::library::answers(bytes, *one));
            let told: Vec<Vec<u8>> = told.into_iter().map(|reading| reading.answer).collect();
            let right = msft_typelib::library::answers(bytes, *two);
            let right: Vec<Vec<u8>> = right.into_iter().map(|reading| reading.answer).collect();
            assert_eq!(told == right, notes.is_empty(), "{name}, {two:?}");
        }
    }
}

/// A record that ends with its table or with the file is read by both.
#[test]
fn what_ends_with_its_table_is_read_by_both() {
    let inside = [End::WithTable, End::SecondWithTable, End::WithFile];
    let all = msft_typelib::inputs::table_ends::all();
    for ended in all.filter(|ended| inside.contains(&ended.end)) {
        let told = msft_typelib::library::answers(&ended.input.bytes, ended.questions[0]);
        assert_eq!(told[ended.answer].answer[0], 0, "{}", ended.input.name);
    }
}
