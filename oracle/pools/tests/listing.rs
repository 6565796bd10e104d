//! Pools put together by hand from JVMS 4.4, and the text that document 02, No. 1 asks for.

use jobs::random::Random;
use pools::constant::{Bootstrap, Constant, Pool, bootstraps_of, pool_of, read_bootstraps};
use pools::frame::{BOOTSTRAPS_ROOM, Frame, POOL_ROOM, ROOM};
use pools::listing::{Refused, list};
use pools::made;

fn text(text: &str) -> Constant {
    Constant::Text(text.into())
}

fn listed(constants: &[Constant], methods: &[Bootstrap]) -> String {
    let bootstraps = bootstraps_of(methods);
    let text = list(ROOM, &pool_of(constants), methods.len() as u16, &bootstraps);
    String::from_utf8(text.unwrap()).unwrap()
}

#[test]
fn one_line_for_each_kind() {
    let constants = [
        text("A"),
        Constant::One(7, 1),
        text("m"),
        text("()V"),
        Constant::Two(12, 3, 4),
        Constant::Two(10, 2, 5),
        Constant::Handle {
            kind: 6,
            reference: 6,
        },
        Constant::Long(-1),
        Constant::Two(18, 0, 5),
        Constant::One(16, 4),
        Constant::One(19, 1),
        Constant::One(20, 0),
        Constant::One(8, 9),
        Constant::Int(i32::MIN),
        Constant::Two(9, 2, 9),
        Constant::Handle {
            kind: 10,
            reference: 99,
        },
    ];
    let methods = [Bootstrap {
        handle: 7,
        arguments: vec![8, 1],
    }];
    let name_and_type = r#"NameAndType "m" : "()V""#;
    let member = format!(r#"Methodref Class "A" . {name_and_type}"#);
    let handle = format!("MethodHandle REF_invokeStatic {member}");
    let lines = [
        r#"1 Utf8 "A""#.into(),
        r#"2 Class "A""#.into(),
        r#"3 Utf8 "m""#.into(),
        r#"4 Utf8 "()V""#.into(),
        format!("5 {name_and_type}"),
        format!("6 {member}"),
        format!("7 {handle}"),
        "8 Long -1".into(),
        format!(r#"10 InvokeDynamic {name_and_type} by {handle} (Long -1, "A")"#),
        r#"11 MethodType "()V""#.into(),
        r#"12 Module "A""#.into(),
        "13 Package 0".into(),
        "14 String 9".into(),
        "15 Integer -2147483648".into(),
        r#"16 Fieldref Class "A" . 9"#.into(),
        "17 MethodHandle 10 99".into(),
    ];
    let text = listed(&constants, &methods);
    assert_eq!(text.lines().collect::<Vec<_>>(), lines);
    assert!(text.ends_with('\n'));
}

#[test]
fn eight_levels_down_stands_the_number() {
    // each class refers to the one before it, the first to itself
    let constants: Vec<_> = (0..10).map(|n: u16| Constant::One(7, n.max(1))).collect();
    let text = listed(&constants, &[]);
    let eight = "Class ".repeat(8);
    assert_eq!(text.lines().next().unwrap(), format!("1 {eight}[1]"));
    assert_eq!(text.lines().nth(9).unwrap(), format!("10 {eight}[2]"));
}

/// A number that leads nowhere is bare, and in brackets where nothing is opened any more.
#[test]
fn what_leads_nowhere_is_bracketed_eight_levels_down() {
    let mut constants: Vec<_> = (1..8).map(|n: u16| Constant::One(7, n + 1)).collect();
    constants.push(Constant::One(7, 99));
    let text = listed(&constants, &[]);
    let mut lines = text.lines();
    assert_eq!(
        lines.next().unwrap(),
        format!("1 {}[99]", "Class ".repeat(8))
    );
    assert_eq!(lines.next().unwrap(), format!("2 {}99", "Class ".repeat(7)));
}

#[test]
fn texts_stay_in_their_line() {
    let every: Vec<u8> = (0..=255).collect();
    let text = listed(&[Constant::Text(every)], &[]);
    assert_eq!(text.lines().count(), 1);
    assert!(text.is_ascii());
    assert!(text.contains(" !\\\"#$") && text.contains(r"[\\]"));
    assert!(text.contains(r"\x1f !") && text.contains(r"}~\x7f\x80"));
    // two for the quote and the backslash, four for what isn't printable
    let length = "1 Utf8 \"\"\n".len() + 93 + 2 * 2 + 4 * (256 - 95);
    assert_eq!(text.len(), length);
}

#[test]
fn the_room_is_exact() {
    let pool = pool_of(&[text("ab"), Constant::One(8, 1)]);
    let length = listed(&[text("ab"), Constant::One(8, 1)], &[]).len();
    assert!(list(length, &pool, 0, &[]).is_ok());
    assert_eq!(list(length - 1, &pool, 0, &[]), Err(Refused::TooLong));
    assert_eq!(list(0, &pool_of(&[]), 0, &[]), Ok(vec![]));
    // 21 comes before 18
    assert_eq!(list(0, &pool, 1, &[]), Err(Refused::NoPool));
}

#[test]
fn what_has_no_end_is_too_long() {
    let constants = [Constant::Two(17, 0, 0)];
    let method = Bootstrap {
        handle: 0,
        arguments: vec![1; 60_000],
    };
    let bootstraps = bootstraps_of(&[method]);
    let refused = list(ROOM, &pool_of(&constants), 1, &bootstraps);
    assert_eq!(refused, Err(Refused::TooLong));
}

#[test]
fn only_pools_are_read() {
    assert!(Pool::read(&[0, 1]).is_some());
    for no_pool in [
        &[][..],
        &[0],
        &[0, 0],
        &[0, 1, 0],
        &[0, 2, 7, 0],
        &[0, 2, 2, 0, 0],
        &[0, 2, 1, 0, 2, 65],
        &[0, 2, 5, 0, 0, 0, 0, 0, 0, 0, 0],
        &[0, 3, 3, 0, 0, 0, 0],
    ] {
        assert_eq!(Pool::read(no_pool), None, "{no_pool:?}");
    }
    assert!(Pool::read(&[0, 3, 6, 0, 0, 0, 0, 0, 0, 0, 0]).is_some());
    assert!(read_bootstraps(0, &[]).is_some());
    assert!(read_bootstraps(1, &[0, 1, 0, 1, 0, 9]).is_some());
    assert_eq!(read_bootstraps(1, &[0, 1, 0, 1, 0]), None);
    assert_eq!(read_bootstraps(2, &[0, 1, 0, 0]), None);
    assert_eq!(read_bootstraps(0, &[0, 1, 0, 0]), None);
}

/// What is made whole reads back to what it was made of, all tags and outcomes come, and frames survive their stream.
#[test]
fn made_pools_are_what_they_say() {
    let mut random = Random::new(1);
    let mut tags = std::collections::BTreeSet::new();
    let mut outcomes = [0; 3];
    let mut lengths = std::collections::BTreeSet::new();
    for _ in 0..20_000 {
        let made = made::next(&mut random);
        let Frame {
            pool,
            count,
            bootstraps,
        } = &made.frame;
        if made.how == "whole" {
            let read = Pool::read(pool).expect("a whole pool");
            let constants: Vec<_> = read.constants().map(|(_, c)| c.clone()).collect();
            assert_eq!(&pool_of(&constants), pool);
            let methods = read_bootstraps(*count, bootstraps).expect("whole bootstraps");
            assert_eq!(&bootstraps_of(&methods), bootstraps);
            tags.extend(constants.iter().map(Constant::tag));
        }
        if made.how == "about the room" {
            let text = list(usize::MAX, pool, *count, bootstraps).unwrap();
            lengths.insert(text.len() as i64 - ROOM as i64);
        }
        outcomes[match list(ROOM, pool, *count, bootstraps) {
            Ok(_) => 0,
            Err(Refused::NoPool) => 1,
            Err(Refused::TooLong) => 2,
        }] += 1;
        let mut stream = Vec::new();
        made.frame.write(&mut stream).unwrap();
        assert_eq!(Frame::read(&mut &stream[..]).unwrap(), Some(made.frame));
    }
    assert_eq!(tags.len(), 17);
    assert_eq!(lengths.into_iter().collect::<Vec<_>>(), [-1, 0, 1]);
    assert!(outcomes.iter().all(|n| *n > 0), "{outcomes:?}");
}

/// A byte more than the room is 18, whatever the bytes are.
#[test]
fn what_has_no_room_is_18() {
    let mut outcomes = [0; 3];
    for made in made::too_long() {
        let Frame {
            pool, bootstraps, ..
        } = &made.frame;
        let longer = pool.len() > POOL_ROOM || bootstraps.len() > BOOTSTRAPS_ROOM;
        let answer = made.frame.answer();
        assert_eq!(longer, answer == b"refused 18\n\n", "{}", made.how);
        outcomes[match &answer[..] {
            b"refused 18\n\n" => 0,
            b"refused 21\n\n" => 1,
            _ => 2,
        }] += 1;
    }
    assert_eq!(outcomes, [17, 5, 28]);
}

#[test]
fn a_class_file_is_cut_apart() {
    let pool = pool_of(&[text("BootstrapMethods"), Constant::One(7, 1)]);
    let mut file = vec![0xca, 0xfe, 0xba, 0xbe, 0, 0, 0, 55];
    file.extend(&pool);
    // access, this, super, an interface, a field with an attribute of one byte, no method
    file.extend([0, 1, 0, 2, 0, 0, 0, 1, 0, 2, 0, 1, 9, 9, 9, 9, 9, 9]);
    file.extend([0, 1, 0, 1, 0, 0, 0, 1, 7, 0, 0]);
    // an attribute of another name, then the bootstraps
    file.extend([0, 2, 0, 2, 0, 0, 0, 0, 0, 1, 0, 0, 0, 6, 0, 1]);
    file.extend([0, 5, 0, 0]);
    let frame = pools::class_file::cut_out(&file).expect("a class file");
    assert_eq!((&frame.pool, frame.count), (&pool, 1));
    assert_eq!(frame.bootstraps, [0, 5, 0, 0]);
    file.push(0);
    assert_eq!(pools::class_file::cut_out(&file), None);
}

#[test]
fn the_last_slot_is_listed() {
    let mut constants = vec![text(""); 65_534];
    constants[65_533] = Constant::One(7, 65_533);
    let text = listed(&constants, &[]);
    assert_eq!(text.lines().count(), 65_534);
    assert!(text.ends_with("65533 Utf8 \"\"\n65534 Class \"\"\n"));
}
