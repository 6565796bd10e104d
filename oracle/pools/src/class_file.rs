//! Pool and bootstrap methods cut out of any class file (JVMS 4.1), past its interfaces, fields and methods.

use crate::bytes::Bytes;
use crate::constant::{Constant, Pool};
use crate::frame::Frame;

const MAGIC: u32 = 0xcafe_babe;

pub fn cut_out(file: &[u8]) -> Option<Frame> {
    let mut from = Bytes::new(file);
    if from.u4()? != MAGIC {
        return None;
    }
    let _minor_and_major = from.u4()?;
    let begin = file.len() - from.left();
    let pool = Pool::read_front(&mut from)?;
    let end = file.len() - from.left();
    let _access_this_and_super = from.take(6)?;
    let interfaces = from.u2()?;
    from.take(2 * usize::from(interfaces))?;
    skip_members(&mut from)?;
    skip_members(&mut from)?;
    let (count, bootstraps) = bootstrap_methods(&mut from, &pool)?;
    let pool = file[begin..end].to_vec();
    Some(Frame {
        pool,
        count,
        bootstraps,
    })
}

/// Fields or methods: six bytes and attributes each.
fn skip_members(from: &mut Bytes) -> Option<()> {
    for _ in 0..from.u2()? {
        from.take(6)?;
        for _ in 0..from.u2()? {
            attribute(from)?;
        }
    }
    Some(())
}

fn attribute<'a>(from: &mut Bytes<'a>) -> Option<(u16, &'a [u8])> {
    let name = from.u2()?;
    let length = from.u4()?;
    Some((name, from.take(length as usize)?))
}

/// The count and the bytes behind it, of the attribute of that name; none and no bytes if there is no such attribute.
fn bootstrap_methods(from: &mut Bytes, pool: &Pool) -> Option<(u16, Vec<u8>)> {
    let mut found = (0, Vec::new());
    for _ in 0..from.u2()? {
        let (name, info) = attribute(from)?;
        if pool.get(name) == Some(&Constant::Text(b"BootstrapMethods".to_vec())) {
            let mut info = Bytes::new(info);
            let count = info.u2()?;
            found = (count, info.take(info.left())?.to_vec());
        }
    }
    (from.left() == 0).then_some(found)
}
