//! `serve` with fixtures: a listener each, and nobody disturbs another.

mod common;

use std::net::{Shutdown, TcpListener};

use common::{held, run, stopped, table, Connection, Folder, Serving};

/// A host with a fixture for each of these users.
fn hosted(path: &str, users: &[u32]) -> Serving {
    let fixtures: Vec<String> = users
        .iter()
        .map(|user| format!("127.0.0.1:0={user}"))
        .collect();
    let mut words = vec!["serve", path, "--records", "64"];
    for fixture in &fixtures {
        words.extend(["--fixture", fixture]);
    }
    Serving::start(&words, 2 + users.len())
}

#[test]
fn the_user_is_fixed_by_where_the_line_comes_from() {
    let folder = Folder::new();
    let path = folder.at("line.table");
    let host = hosted(&path, &[1, 2, 1]);
    assert!(
        host.said[2].ends_with(", user 1\n") && host.said[3].ends_with(", user 2\n"),
        "{:?}",
        host.said
    );
    let mut fixtures: Vec<Connection> = host.addresses().into_iter().map(Connection::to).collect();
    assert_eq!(fixtures[0].ask("CRD .R"), "0 0 0 1 0 0 3\n");
    assert_eq!(fixtures[1].ask("LST .R"), "11 1 1 0 0 0 0\n");
    assert_eq!(fixtures[2].ask("LST .R"), "0 0 0 1 0 0 0\n");
    assert_eq!(fixtures[1].ask("CRD .R .4"), "0 0 0 1 0 0 3\n");
    assert_eq!(fixtures[0].ask("LST ."), "0 0 0 1 0 13 0\nDM.U0    .R\r\n");
    assert_eq!(fixtures[1].ask("LST ."), "0 0 0 1 0 13 0\nDM.U4    .R\r\n");
}

#[test]
fn what_is_answered_is_in_the_file() {
    let folder = Folder::new();
    let path = folder.at("line.table");
    let host = hosted(&path, &[1]);
    let mut fixture = Connection::to(host.addresses()[0]);
    let mut expected = table(64, &[]);
    for (line, text) in [
        ("CRD .R", ""),
        ("WRS M .R:A", "5.0 V"),
        ("WRS L .R:A", "4.9 V"),
        ("DEL .R:A", ""),
    ] {
        let sent = if text.is_empty() {
            line.to_string()
        } else {
            format!("{line}\n{text}")
        };
        assert!(fixture.ask(&sent).starts_with("0 "));
        let answer = stopped(&mut expected, line, text.as_bytes(), filebox::NO_STOP);
        assert!(answer.granted().is_ok());
        assert_eq!(held(&path), expected);
    }
}

#[test]
fn rubbish_silence_and_going_away_disturb_nobody() {
    let folder = Folder::new();
    let path = folder.at("line.table");
    let host = hosted(&path, &[1, 1, 1]);
    let addresses = host.addresses();
    let mut good = Connection::to(addresses[0]);
    assert_eq!(good.ask("CRD .R"), "0 0 0 1 0 0 3\n");
    assert_eq!(good.ask("CRD .R:LIMITS"), "0 0 0 1 0 0 4\n");
    let _silent = Connection::to(addresses[1]);
    let mut rubbish = Connection::to(addresses[2]);
    rubbish.send(&[vec![0xff; 3_000_000], b"\nLST .R:\n".to_vec()].concat());
    let before = held(&path);
    for half in [
        &b"DEL .R:LIMITS"[..],
        b"WRS M .R:A\nhalf a te",
        b"WRS M .R:A",
        b"\n",
        b"",
    ] {
        let mut away = Connection::to(addresses[2]);
        away.send(half);
        away.stream.shutdown(Shutdown::Write).unwrap();
        let answers = if half == b"\n" { "5 0 0 0 0 0 0\n" } else { "" };
        assert_eq!(
            if answers.is_empty() {
                String::new()
            } else {
                away.answer()
            },
            answers
        );
        assert!(away.is_ended());
        assert_eq!(good.ask("LST .R"), "0 0 0 1 0 17 0\nDM.U0    LIMITS\r\n");
    }
    assert_eq!(
        (rubbish.answer().as_str(), rubbish.answer().as_str()),
        ("4 0 0 0 0 0 0\n", "7 1 2 0 0 0 0\n")
    );
    assert_eq!(held(&path), before);
}

#[test]
fn an_answer_that_nobody_reads_disturbs_nobody() {
    let folder = Folder::new();
    let path = folder.at("line.table");
    let host = hosted(&path, &[1, 1]);
    let addresses = host.addresses();
    let mut good = Connection::to(addresses[0]);
    let mut deaf = Connection::to(addresses[1]);
    assert_eq!(
        good.ask(&format!("WRS M .R\n{}", "x".repeat(1_400))),
        "0 0 0 1 0 0 62\n"
    );
    deaf.stream.set_nonblocking(true).unwrap();
    use std::io::Write;
    // until its answers, which nobody reads, hold it up
    while deaf.stream.write(&b"RDS .R\n".repeat(1_000)).is_ok() {}
    for _ in 0..20 {
        assert!(good.ask("LST .").starts_with("0 0 0 1 0 13 0\n"));
    }
}

#[test]
fn one_connection_too_many_closes_the_oldest_of_that_fixture() {
    let folder = Folder::new();
    let host = hosted(&folder.at("line.table"), &[1, 2]);
    let addresses = host.addresses();
    let mut other = Connection::to(addresses[1]);
    let mut open: Vec<Connection> = Vec::new();
    for _ in 0..9 {
        let mut connection = Connection::to(addresses[0]);
        assert_eq!(connection.ask("LST ."), "0 0 0 1 0 0 0\n");
        open.push(connection);
    }
    assert!(open[0].is_ended());
    for connection in open[1..].iter_mut().chain([&mut other]) {
        assert_eq!(connection.ask("LST ."), "0 0 0 1 0 0 0\n");
    }
}

#[test]
fn a_port_that_is_taken_is_said() {
    let folder = Folder::new();
    let taken = TcpListener::bind("127.0.0.1:0").unwrap();
    let address = taken.local_addr().unwrap().to_string();
    let path = folder.at("line.table");
    run(&["serve", &path, "--fixture", &format!("{address}=1")]).fails(&[
        &address,
        "cannot be listened at",
        "another program",
    ]);
    run(&["serve", &path, "--fixture", "no.such.host.invalid:1=1"])
        .fails(&["no.such.host.invalid:1"]);
}
