//! FORDLINNET_TRACE names files: one for each group of the process, and number 0 for what stands beside the groups.

#![cfg(all(feature = "std", feature = "trace"))]

use fordlinnet::{set_up, Books, Due, Group, Links, Record, Settings};

#[test]
fn every_group_of_a_process() {
    let folder = std::env::temp_dir().join(format!("fordlinnet-trace-{}", std::process::id()));
    std::fs::create_dir_all(&folder).expect("a folder");
    std::env::set_var("FORDLINNET_TRACE", folder.join("run"));
    let mut first = Group::fresh(1, 8).expect("sizes in range");
    let mut second = Group::lend(1, 8, [0; 8], [Record::default()], Links { active: [true; 4], ..Links::default() });
    let _ = first.link_change(1, true);
    let _ = second.shutdown(2);
    let mut books = Books::of([0; 64]);
    let _ = books.take(64);
    let _ = books.take(3);
    let _ = books.give_back(0, 64);
    let _ = Books::free().take(1);
    let _ = Books::of([9; 64]).take(1);
    let _ = set_up(&Settings::default(), Due::Accept, &[1, 2]);
    let _ = set_up(&Settings { mtu: 3, ..Settings::default() }, Due::Nothing, &[]);
    let read = |number| std::fs::read_to_string(folder.join(format!("run.{}.{number}", std::process::id()))).expect("a trace");
    assert_eq!(read(1), "group 1 8 8 1\n#> group\nlink 1 1\n#> link count 0 out -\n");
    assert_eq!(read(2), "group 1 8 8 1\n#> group\nlinks 1 1 1 1\n#> links\nshutdown 2\n#> refused 2\n");
    let beside = "take 64\n#> take 0\ntake 3\n#> refused 18\nreturn 0 64\n#> return\ntake 1\n#> take 0\n";
    let laid = std::format!("books {}\n#> books\ntake 1\n#> refused 3\n", "09".repeat(64));
    let zeros = "0000000000000000 00000000000000000000000000000000 000000000000 00000000 0 0 - 0 0";
    let settings = std::format!("settings 0 {zeros} 3{}", " 0".repeat(14));
    let up = std::format!("setup Accept 0102\n#> refused 1\n{settings}\n#> settings\nsetup none -\n#> refused 1\n");
    assert_eq!(read(0), std::format!("{beside}{laid}{up}"));
    std::fs::remove_dir_all(&folder).expect("a folder");
}
