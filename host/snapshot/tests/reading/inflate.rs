//! Inflates a deflate stream of stored and fixed blocks.

/// The bits of a stream, lowest first.
struct Stream<'a> {
    bytes: &'a [u8],
    at: usize,
}

impl Stream<'_> {
    fn bit(&mut self) -> Result<usize, String> {
        let byte = self.bytes.get(self.at / 8).ok_or("the stream is cut off")?;
        let bit = usize::from(*byte) / (1 << (self.at % 8)) % 2;
        self.at += 1;
        Ok(bit)
    }

    fn number(&mut self, bits: usize) -> Result<usize, String> {
        let mut number = 0;
        for place in 0..bits {
            number += self.bit()? << place;
        }
        Ok(number)
    }

    /// A literal or length symbol: the fixed codes have seven, eight or nine bits.
    fn symbol(&mut self) -> Result<usize, String> {
        let mut code = 0;
        for _ in 0..7 {
            code = 2 * code + self.bit()?;
        }
        if code < 24 {
            return Ok(256 + code);
        }
        code = 2 * code + self.bit()?;
        match code {
            48..=191 => return Ok(code - 48),
            192..=199 => return Ok(280 + code - 192),
            _ => {}
        }
        code = 2 * code + self.bit()?;
        Ok(144 + code - 400)
    }

    fn distance_code(&mut self) -> Result<usize, String> {
        let mut code = 0;
        for _ in 0..5 {
            code = 2 * code + self.bit()?;
        }
        Ok(code)
    }

    /// A length, counted up from the shortest code by code.
    fn length(&mut self, symbol: usize) -> Result<usize, String> {
        if symbol == 285 {
            return Ok(258);
        }
        let mut start = 3;
        for before in 257..symbol {
            start += 1 << length_bits(before);
        }
        Ok(start + self.number(length_bits(symbol))?)
    }

    fn distance(&mut self) -> Result<usize, String> {
        let code = self.distance_code()?;
        if code > 29 {
            return Err(format!("distance code {code}"));
        }
        let mut start = 1;
        for before in 0..code {
            start += 1 << distance_bits(before);
        }
        Ok(start + self.number(distance_bits(code))?)
    }
}

fn length_bits(symbol: usize) -> usize {
    match symbol {
        257..=264 => 0,
        265..=268 => 1,
        269..=272 => 2,
        273..=276 => 3,
        277..=280 => 4,
        _ => 5,
    }
}

fn distance_bits(code: usize) -> usize {
    if code < 4 {
        0
    } else {
        code / 2 - 1
    }
}

/// What the stream holds, and how many of its bytes were used.
pub fn inflate(bytes: &[u8]) -> Result<(Vec<u8>, usize), String> {
    let mut stream = Stream { bytes, at: 0 };
    let mut content = Vec::new();
    loop {
        let is_last = stream.bit()? == 1;
        match stream.number(2)? {
            0 => stored(&mut stream, &mut content)?,
            1 => fixed(&mut stream, &mut content)?,
            kind => return Err(format!("a block of type {kind}")),
        }
        if is_last {
            return Ok((content, stream.at.div_ceil(8)));
        }
    }
}

fn stored(stream: &mut Stream, content: &mut Vec<u8>) -> Result<(), String> {
    stream.at = stream.at.next_multiple_of(8);
    let (length, check) = (stream.number(16)?, stream.number(16)?);
    if length + check != 0xFFFF {
        return Err("the length of a stored block is not confirmed".to_string());
    }
    for _ in 0..length {
        content.push(stream.number(8)? as u8);
    }
    Ok(())
}

fn fixed(stream: &mut Stream, content: &mut Vec<u8>) -> Result<(), String> {
    loop {
        match stream.symbol()? {
            256 => return Ok(()),
            byte @ 0..=255 => content.push(byte as u8),
            symbol @ 286.. => return Err(format!("symbol {symbol}")),
            symbol => {
                let length = stream.length(symbol)?;
                let distance = stream.distance()?;
                let from = content.len().checked_sub(distance);
                let from = from.ok_or("a copy from before the beginning")?;
                for at in from..from + length {
                    content.push(content[at]);
                }
            }
        }
    }
}
