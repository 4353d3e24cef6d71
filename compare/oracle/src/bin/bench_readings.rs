//! Times the product's readings beside the reference's.

use msft_typelib::timing;

fn main() {
    timing::print_titles();
    timing::readings::print();
}
