//! The notation of bytes.

use crate::generated;

/// The bytes that a notation stands for.
pub fn bytes(notation: &str) -> Result<Vec<u8>, String> {
    let mut reader = Reader { rest: notation };
    let bytes = reader.sequence()?;
    match reader.rest {
        "" => Ok(bytes),
        rest => Err(format!("the notation is not readable at {rest}")),
    }
}

/// The part of a notation that is not read yet.
struct Reader<'a> {
    rest: &'a str,
}

impl<'a> Reader<'a> {
    /// The bytes up to the end, or to a `)` or `}`, which is not read.
    fn sequence(&mut self) -> Result<Vec<u8>, String> {
        let mut bytes = Vec::new();
        while let Some(first) = self.rest.chars().next() {
            match first {
                ')' | '}' => break,
                '\\' => bytes.push(self.escaped()?),
                '(' => bytes.extend(self.repeated()?),
                '{' => bytes.extend(self.generated()?),
                ' '..='~' => bytes.extend(self.take(1)?.bytes()),
                _ => return Err(format!("{first:?} is not printable ASCII")),
            }
        }
        Ok(bytes)
    }

    /// The next bytes of the notation, so many.
    fn take(&mut self, length: usize) -> Result<&'a str, String> {
        let parts = self.rest.split_at_checked(length);
        let (taken, rest) = parts.ok_or(format!("the notation ends in {}", self.rest))?;
        self.rest = rest;
        Ok(taken)
    }

    /// The byte of `\` and two digits.
    fn escaped(&mut self) -> Result<u8, String> {
        let sign = self.take(3)?;
        let mut digits = sign.chars().skip(1).map(|digit| digit.to_digit(16));
        match (digits.next().flatten(), digits.next().flatten()) {
            (Some(high), Some(low)) => Ok((high * 16 + low) as u8),
            _ => Err(format!("{sign} stands for no byte")),
        }
    }

    /// The bytes of `(BYTES)*N`.
    fn repeated(&mut self) -> Result<Vec<u8>, String> {
        self.take(1)?;
        let bytes = self.sequence()?;
        if self.take(2)? != ")*" {
            return Err("`(` without `)*`".to_string());
        }
        let digits = self.rest.bytes().take_while(u8::is_ascii_digit).count();
        let times = self.take(digits)?;
        match times.parse() {
            Ok(times) => Ok(bytes.repeat(times)),
            Err(_) => Err(format!("{times:?} after `)*` is no number")),
        }
    }

    /// The bytes of a word and numbers between `{` and `}`.
    fn generated(&mut self) -> Result<Vec<u8>, String> {
        let length = self.rest.find('}').ok_or("`{` without `}`")?;
        let words = &self.take(length + 1)?[1..length];
        generated::records(words)
    }
}
