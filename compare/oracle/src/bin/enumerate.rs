//! Lists the records that the reference finds in each given library: kind, place and length.

use std::io::{self, Write};
use std::{env, fs};

use msft_typelib::{TypeLib, enumerate};

fn main() -> io::Result<()> {
    let mut out = io::BufWriter::new(io::stdout().lock());
    for path in env::args_os().skip(1) {
        let bytes = fs::read(&path)?;
        writeln!(out, "{}", path.display())?;
        match TypeLib::parse(&bytes) {
            Ok(lib) => {
                for record in enumerate::records(&lib) {
                    writeln!(out, "{:?} {} {}", record.kind, record.at, record.len)?;
                }
            }
            Err(error) => writeln!(out, "{error:?}")?,
        }
    }
    out.flush()
}
