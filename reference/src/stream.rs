//! Streams of inputs: each is preceded by its length in four bytes, most
//! significant first.

use std::io::{self, Read, Write};

/// Writes one input behind its length.
pub fn write(out: &mut impl Write, input: &[u8]) -> io::Result<()> {
    let length = u32::try_from(input.len())
        .map_err(|_| io::Error::new(io::ErrorKind::InvalidInput, "the input is too long"))?;
    out.write_all(&length.to_be_bytes())?;
    out.write_all(input)
}

/// Reads the next input into the buffer; false where the stream ends. A
/// stream that ends within an input is an error.
pub fn read(source: &mut impl Read, input: &mut Vec<u8>) -> io::Result<bool> {
    let mut length = [0; 4];
    let mut have = 0;
    while have < length.len() {
        match source.read(&mut length[have..]) {
            Ok(0) if have == 0 => return Ok(false),
            Ok(0) => return Err(io::ErrorKind::UnexpectedEof.into()),
            Ok(count) => have += count,
            Err(error) if error.kind() == io::ErrorKind::Interrupted => {}
            Err(error) => return Err(error),
        }
    }
    let length = u32::from_be_bytes(length);
    input.clear();
    source.by_ref().take(length.into()).read_to_end(input)?;
    if input.len() == length as usize {
        Ok(true)
    } else {
        Err(io::ErrorKind::UnexpectedEof.into())
    }
}

#[cfg(test)]
mod tests {
    use super::*;

    #[test]
    fn inputs_come_back() {
        let mut bytes = Vec::new();
        for input in [&b"abc"[..], b"", &[7; 300]] {
            write(&mut bytes, input).unwrap();
        }
        assert_eq!(bytes[..7], [0, 0, 0, 3, b'a', b'b', b'c']);
        let mut source = &bytes[..];
        let mut input = Vec::new();
        for expected in [&b"abc"[..], b"", &[7; 300]] {
            assert!(read(&mut source, &mut input).unwrap());
            assert_eq!(input, expected);
        }
        assert!(!read(&mut source, &mut input).unwrap());
        assert!(read(&mut &bytes[..2], &mut input).is_err());
        assert!(read(&mut &bytes[..6], &mut input).is_err());
    }
}
