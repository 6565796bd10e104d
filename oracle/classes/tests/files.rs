//! Files put together by hand from JVMS 4.1 and 4.7.23, and laws that hold for all.

use classes::file::{Parts, Refused};
use classes::frame::{Frame, ROOM};
use classes::{loadable, made};
use jobs::random::Random;
use pools::class_file::cut_out;
use pools::constant::{Constant, Pool, pool_of};

/// A class A that is its own super class, and the attribute's name in slot 3.
fn pool() -> Vec<u8> {
    pool_of(&[
        Constant::Text(b"A".to_vec()),
        Constant::One(7, 1),
        Constant::Text(b"BootstrapMethods".to_vec()),
    ])
}

fn parts() -> Parts {
    Parts {
        minor: 1,
        major: 55,
        pool: pool(),
        access: 0x21,
        this_class: 2,
        super_class: 2,
        name: 3,
        count: 1,
        bootstraps: vec![0, 9, 0, 1, 0, 2],
    }
}

fn by_hand() -> Vec<u8> {
    let mut file = vec![
        0xca, 0xfe, 0xba, 0xbe, 0, 1, 0, 55, 0, 4, 1, 0, 1, b'A', 7, 0, 1, 1, 0, 16,
    ];
    file.extend(b"BootstrapMethods");
    file.extend([0, 0x21, 0, 2, 0, 2, 0, 0, 0, 0, 0, 0, 0, 1]);
    file.extend([0, 3, 0, 0, 0, 8, 0, 1, 0, 9, 0, 1, 0, 2]);
    file
}

#[test]
fn a_file_by_hand() {
    assert_eq!(parts().write(ROOM), Ok(by_hand()));
    let pool_end = 8 + pool().len();
    assert_eq!(Parts::read(&by_hand()), Some((parts(), pool_end)));
    let line = format!("parts 1 55 {pool_end} 33 2 2 3 1 {}\n", by_hand().len() - 6);
    assert_eq!(Frame::Read(by_hand()).answer(), line);
    assert!(
        Frame::Write(parts())
            .answer()
            .starts_with("file cafebabe00010037000401000141")
    );
}

#[test]
fn without_a_name_there_is_no_attribute() {
    let bare = Parts {
        name: 0,
        count: 0,
        bootstraps: vec![],
        ..parts()
    };
    let mut file = by_hand();
    file.truncate(8 + pool().len() + 12);
    file.extend([0, 0]);
    assert_eq!(bare.write(ROOM), Ok(file.clone()));
    assert_eq!(Parts::read(&file).unwrap().0, bare);
    let line = Frame::Read(file.clone()).answer();
    assert!(line.ends_with(&format!(" 0 0 {}\n", file.len())), "{line}");
    // a name and no bootstraps are another set of parts, with another file
    let empty = Parts { name: 3, ..bare };
    assert_eq!(empty.write(ROOM).unwrap().len(), file.len() + 8);
}

#[test]
fn parts_that_make_no_file() {
    let refused = |change: fn(&mut Parts)| {
        let mut parts = parts();
        change(&mut parts);
        assert_eq!(
            parts.write(ROOM),
            Err(Refused::OutsideTheFrame),
            "{parts:?}"
        );
    };
    refused(|p| p.name = 0);
    refused(|p| p.name = 1);
    refused(|p| p.name = 2);
    refused(|p| p.name = 4);
    refused(|p| p.count = 2);
    refused(|p| p.count = 0);
    refused(|p| p.bootstraps.push(0));
    refused(|p| p.bootstraps.clear());
    refused(|p| p.pool.push(0));
    refused(|p| p.pool[1] = 5);
    refused(|p| *p.pool.last_mut().unwrap() = b'z');
    refused(|p| (p.name, p.count) = (0, 0));
    // 27 comes before 18
    assert_eq!(parts().write(by_hand().len() - 1), Err(Refused::TooLong));
    let nameless = Parts { name: 0, ..parts() };
    assert_eq!(nameless.write(0), Err(Refused::OutsideTheFrame));
}

#[test]
fn files_outside_the_frame() {
    let behind_pool = 8 + pool().len();
    let refused = |at: usize, to: u8| {
        let mut file = by_hand();
        file[at] = to;
        assert_eq!(Parts::read(&file), None, "byte {at} is {to}");
    };
    refused(0, 0);
    // interfaces, fields, methods, two attributes, none
    for at in [7, 9, 11] {
        refused(behind_pool + at, 1);
    }
    refused(behind_pool + 13, 2);
    refused(behind_pool + 13, 0);
    // the name's slot, the attribute's length, the count
    refused(behind_pool + 15, 1);
    refused(behind_pool + 15, 0);
    refused(behind_pool + 19, 7);
    refused(behind_pool + 21, 2);
}

/// What is read is written back to the same file, and every file that parts make is read as them.
#[test]
fn both_ways() {
    let mut random = Random::new(11);
    let mut good = 0;
    for _ in 0..3000 {
        let parts = made::proper_parts(&mut random);
        let file = parts.write(usize::MAX).expect("proper parts");
        assert_eq!(
            Parts::read(&file),
            Some((parts.clone(), 8 + parts.pool.len()))
        );
        let frame = made::next(&mut random);
        if let Frame::Read(file) = &frame
            && let Some((parts, _)) = Parts::read(file)
        {
            assert_eq!(parts.write(usize::MAX).as_ref(), Ok(file));
            good += 1;
        }
        let mut stream = Vec::new();
        frame.write(&mut stream).unwrap();
        assert_eq!(Frame::read(&mut &stream[..]).unwrap(), Some(frame));
    }
    assert!(good > 300, "{good}");
}

/// Files about the room come with an attribute and without, of all three lengths.
#[test]
fn long_files_end_about_the_room() {
    let mut random = Random::new(17);
    let mut seen = std::collections::BTreeSet::new();
    for _ in 0..40_000 {
        if let Frame::Write(parts) = made::next(&mut random)
            && parts.pool.len() > 100_000
            && let Ok(file) = parts.write(usize::MAX)
            && file.len().abs_diff(ROOM) < 2
        {
            seen.insert((parts.name, file.len()));
            assert_eq!(parts.write(ROOM).is_ok(), file.len() <= ROOM);
        }
    }
    assert_eq!(seen.len(), 6, "{seen:?}");
}

#[test]
fn all_damages_are_there() {
    let file = by_hand();
    let damages: std::collections::HashSet<_> = made::all_damages(&file).collect();
    assert_eq!(damages.len(), file.len() + 256 + 255 * file.len());
    assert!(!damages.contains(&file));
}

/// Classes for a loader: this and super class are what they say, and a reader of whole class files finds the same pool and bootstraps.
#[test]
fn loadable_classes_are_what_they_say() {
    let mut random = Random::new(13);
    let mut with_bootstraps = 0;
    for number in 0..300 {
        let class = loadable::next(&mut random, number);
        let parts = &class.parts;
        let pool = Pool::read(&parts.pool).expect("a pool");
        let name = |slot| match pool.get(slot) {
            Some(Constant::One(7, name)) => pool.get(*name).cloned(),
            _ => None,
        };
        let text = |text: &str| Some(Constant::Text(text.into()));
        assert_eq!(name(parts.this_class), text(&class.class_name));
        assert_eq!(name(parts.super_class), text(class.super_name));
        let file = parts.write(ROOM).expect("parts that make a file");
        let frame = cut_out(&file).expect("a class file");
        assert_eq!(frame.pool, parts.pool);
        assert_eq!(
            (frame.count, &frame.bootstraps),
            (parts.count, &parts.bootstraps)
        );
        with_bootstraps += usize::from(parts.count > 0);
    }
    assert!(with_bootstraps > 100, "{with_bootstraps}");
}
