//! Keys that are structs and enums, for the sides in Rust.

/// A symbol: a module, and the number of a name in it.
#[derive(Clone, Copy, PartialEq, Eq, Hash)]
pub struct Symbol {
    pub module: u32,
    pub number: u32,
}

impl Symbol {
    /// Returns a symbol of one of four modules.
    pub fn of(number: u64) -> Symbol {
        Symbol {
            module: (number >> 62) as u32,
            number: number as u32,
        }
    }
}

/// A month, in one byte.
#[derive(Clone, Copy, PartialEq, Eq, Hash)]
pub enum Month {
    January,
    February,
    March,
    April,
    May,
    June,
    July,
    August,
    September,
    October,
    November,
    December,
}

impl Month {
    /// Returns the month at this index of a year.
    pub fn of(number: u64) -> Month {
        match number {
            0 => Month::January,
            1 => Month::February,
            2 => Month::March,
            3 => Month::April,
            4 => Month::May,
            5 => Month::June,
            6 => Month::July,
            7 => Month::August,
            8 => Month::September,
            9 => Month::October,
            10 => Month::November,
            _ => Month::December,
        }
    }
}

/// A header: a common one by its number, or any other by its name.
#[derive(PartialEq, Eq, Hash)]
pub enum Header {
    Common(u32),
    Other(String),
}

impl Header {
    /// Returns the header of a line. About half of the lines are common headers.
    pub fn of(line: &str) -> Header {
        let mut code = 0u32;
        for byte in line.as_bytes() {
            code = code.wrapping_mul(31).wrapping_add(u32::from(*byte));
        }
        if code % 2 == 0 {
            return Header::Common(code);
        }
        Header::Other(String::from(line))
    }
}
