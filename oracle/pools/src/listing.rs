//! The listing of a finished pool: a line a constant, what it refers to opened out.

use crate::constant::{Bootstrap, Constant, Pool, read_bootstraps};
use crate::hex_float;

/// How often opening goes on below the constant that begins a line: that one is the first of eight levels.
const LEVELS_BELOW: usize = 7;

#[derive(Clone, Copy, Debug, PartialEq, Eq)]
pub enum Refused {
    NoPool = 21,
    TooLong = 18,
}

/// The text for a room of so many bytes.
pub fn list(room: usize, pool: &[u8], count: u16, bootstraps: &[u8]) -> Result<Vec<u8>, Refused> {
    let pool = Pool::read(pool).ok_or(Refused::NoPool)?;
    let methods = read_bootstraps(count, bootstraps).ok_or(Refused::NoPool)?;
    let mut lister = Lister {
        pool: &pool,
        methods: &methods,
        text: Vec::new(),
        room,
    };
    lister.lines()?;
    Ok(lister.text)
}

struct Lister<'a> {
    pool: &'a Pool,
    methods: &'a [Bootstrap],
    text: Vec<u8>,
    room: usize,
}

type Shown = Result<(), Refused>;

impl Lister<'_> {
    /// Every step of the opening shows something, so that a text without end stops here.
    fn show(&mut self, text: impl AsRef<[u8]>) -> Shown {
        self.text.extend_from_slice(text.as_ref());
        if self.text.len() <= self.room {
            Ok(())
        } else {
            Err(Refused::TooLong)
        }
    }

    fn lines(&mut self) -> Shown {
        for (slot, constant) in self.pool.constants() {
            self.show(format!("{slot} "))?;
            self.kind(constant)?;
            self.held(constant, LEVELS_BELOW)?;
            self.show("\n")?;
        }
        Ok(())
    }

    fn kind(&mut self, constant: &Constant) -> Shown {
        self.show(match constant.tag() {
            1 => "Utf8 ",
            3 => "Integer ",
            4 => "Float ",
            5 => "Long ",
            6 => "Double ",
            7 => "Class ",
            8 => "String ",
            9 => "Fieldref ",
            10 => "Methodref ",
            11 => "InterfaceMethodref ",
            12 => "NameAndType ",
            15 => "MethodHandle ",
            16 => "MethodType ",
            17 => "Dynamic ",
            18 => "InvokeDynamic ",
            19 => "Module ",
            20 => "Package ",
            tag => unreachable!("tag {tag} is never read"),
        })
    }

    fn held(&mut self, constant: &Constant, levels: usize) -> Shown {
        match constant {
            Constant::Text(text) => self.quoted(text),
            Constant::Int(value) => self.show(value.to_string()),
            Constant::Long(value) => self.show(value.to_string()),
            Constant::Float(bits) => {
                self.show(format!("{bits:08x} {}", hex_float::of_float(*bits)))
            }
            Constant::Double(bits) => {
                self.show(format!("{bits:016x} {}", hex_float::of_double(*bits)))
            }
            Constant::Handle { kind, reference } => {
                match handle_kind(*kind) {
                    Some(name) => self.show(format!("REF_{name} "))?,
                    None => self.show(format!("{kind} "))?,
                }
                self.slot(*reference, levels)
            }
            Constant::One(_, slot) => self.slot(*slot, levels),
            Constant::Two(17 | 18, method, name_and_type) => {
                self.slot(*name_and_type, levels)?;
                self.show(" by ")?;
                self.method(*method, levels)
            }
            Constant::Two(tag, first, second) => {
                self.slot(*first, levels)?;
                self.show(if *tag == 12 { " : " } else { " . " })?;
                self.slot(*second, levels)
            }
        }
    }

    fn quoted(&mut self, text: &[u8]) -> Shown {
        let mut out = b"\"".to_vec();
        for &byte in text {
            match byte {
                b'"' | b'\\' => out.extend([b'\\', byte]),
                b' '..=b'~' => out.push(byte),
                _ => out.extend(format!("\\x{byte:02x}").bytes()),
            }
        }
        out.push(b'"');
        self.show(out)
    }

    fn slot(&mut self, slot: u16, levels: usize) -> Shown {
        if levels == 0 {
            return self.show(format!("[{slot}]"));
        }
        match self.pool.get(slot) {
            None => self.show(slot.to_string()),
            Some(text @ Constant::Text(_)) => self.held(text, levels - 1),
            Some(constant) => {
                self.kind(constant)?;
                self.held(constant, levels - 1)
            }
        }
    }

    fn method(&mut self, index: u16, levels: usize) -> Shown {
        if levels == 0 {
            return self.show(format!("[{index}]"));
        }
        let Some(method) = self.methods.get(usize::from(index)) else {
            return self.show(index.to_string());
        };
        self.slot(method.handle, levels - 1)?;
        self.show(" (")?;
        for (number, argument) in method.arguments.iter().enumerate() {
            if number > 0 {
                self.show(", ")?;
            }
            self.slot(*argument, levels - 1)?;
        }
        self.show(")")
    }
}

/// JVMS table 5.4.3.5-A.
fn handle_kind(kind: u8) -> Option<&'static str> {
    let names = [
        "getField",
        "getStatic",
        "putField",
        "putStatic",
        "invokeVirtual",
        "invokeStatic",
        "invokeSpecial",
        "newInvokeSpecial",
        "invokeInterface",
    ];
    names.get(usize::from(kind).checked_sub(1)?).copied()
}
