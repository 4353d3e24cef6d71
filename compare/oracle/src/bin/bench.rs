//! Times the product beside the reference: sheets, figures and readings, in one table; and the product's figures beside
//! its sheets.

use msft_typelib::timing;

fn main() {
    timing::print_titles();
    timing::sheets::print(false);
    timing::figures::print(false);
    timing::readings::print();
    timing::figures::print_beside_sheets(false);
}
