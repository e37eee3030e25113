//! The plane file that is shipped is the one that `make_sample` writes.

use reference::plane_file::{read_header, Header};
use reference::Size;
use std::process::Command;

#[test]
fn shipped_file_is_the_programs() {
    let shipped = std::fs::read("../../examples/ring.planes").unwrap();
    let header = Header { mode: 2, size: Size::new(4, 4) };
    assert_eq!(read_header(&shipped), Ok(header));
    let made = Command::new(env!("CARGO_BIN_EXE_make_sample")).output().unwrap();
    assert!(
        made.status.success() && made.stdout == shipped,
        "examples/ring.planes is another file"
    );
}
