//! Document 01's session, whole, byte for byte.

use second::compare::{other_output, own_output};

const INPUT: &str = "\
2 2 1 100
3
14 0
14 1
8 0
2 0 0 77
3 0 5 0
4 0
4 1
4 0
4 1
6 0
8 1
1 1 0
3 1 6 1
4 2
9 1 0
4 1
9 1 0
9 1 0
4 1
6 1
";

const OUTPUT: &str = "\
0 0 0 0 0
0 0 0 0 0
0 0 0 0 0
0 0 0 0 0
0 0 0 0 0
0 0 0 0 0
0 0 0 0 0
0 0 0 0 0
0 0 0 0 0
0 2 0 0 0
0 0 0 0 0
0 0 0 0 0
0 0 0 0 0
0 0 0 0 0
2 0 0 0 0
0 0 0 0 0
0 0 0 0 0
0 0 0 0 0
0 0 0 0 0
0 1 1 0 77
";

#[test]
fn the_session() {
    assert_eq!(own_output(INPUT.as_bytes()), OUTPUT.as_bytes());
}

#[test]
fn the_session_through_pipes() {
    let command = [env!("CARGO_BIN_EXE_second").to_string()];
    let (output, status_0) = other_output(&command, INPUT.as_bytes()).unwrap();
    assert_eq!(output, OUTPUT.as_bytes());
    assert!(status_0);
}
