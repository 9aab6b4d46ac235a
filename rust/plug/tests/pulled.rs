//! The plug is pulled two thousand times: nothing is half-filed, and nothing is lost that was answered.

use std::path::Path;

#[test]
fn a_killed_host_is_mended_to_the_table_before_or_after() {
    let program = Path::new(env!("CARGO_BIN_EXE_plug"));
    let counts = plug::pull(program, 2_000, 1971).expect("every kill");
    println!("{counts:?}");
    assert_eq!(counts.kills, 2_000);
    assert!(counts.answered > 1_000, "{counts:?}");
    assert!(counts.half_stored > 0, "{counts:?}");
    assert!(counts.half_rewritten > 0, "{counts:?}");
    assert!(counts.half_destroyed > 0, "{counts:?}");
}
