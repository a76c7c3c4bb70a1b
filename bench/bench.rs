//! Measures the proved library against the second program, plain C and memcpy, in
//! one run and on the same inputs. Prints tables, as Markdown where told so by
//! `--markdown`.

use std::process::ExitCode;

mod chip;
mod host;
mod measure;
mod replies;
mod requests;

// Not all of the interface and of the second program is measured.
#[allow(dead_code)]
#[path = "../second/interface.rs"]
mod interface;

#[allow(dead_code)]
#[path = "../second/link.rs"]
mod link;

#[allow(dead_code)]
#[path = "../second/host.rs"]
mod second_host;

// Once more, so that what reads single bytes has one caller here too, as in the
// library.
#[allow(dead_code)]
#[path = "../second/link.rs"]
mod single;

#[allow(dead_code)]
#[path = "../second/tube.rs"]
mod tube;

use measure::Table;

fn main() -> ExitCode {
    let markdown = std::env::args().skip(1).any(|one| one == "--markdown");
    let parts: [fn() -> Option<Vec<Table>>; 4] = [
        chip::tables,
        requests::tables,
        replies::tables,
        host::tables,
    ];
    for part in parts {
        let Some(tables) = part() else {
            println!("FAILED: answers differ");
            return ExitCode::FAILURE;
        };
        for table in tables {
            table.print(markdown);
        }
    }
    ExitCode::SUCCESS
}
