//! Document 02, Point 8: "Two accepted texts print alike exactly when they differ only in what this form removes."
//! Whether two texts do is found by walking the bytes of both side by side. Nothing is printed here, no line is cut
//! into tokens, and nothing is shared with `printed`.

/// Whether two accepted texts differ only in what the printed form removes (8.9).
pub fn alike(one: &[u8], other: &[u8]) -> bool {
    let (mut one, mut other) = (Walk { rest: one }, Walk { rest: other });
    loop {
        match (one.find_line(), other.find_line()) {
            (true, true) if walk_line(&mut one, &mut other) => {}
            (false, false) => return true,
            _ => return false,
        }
    }
}

/// A place in an accepted text.
#[derive(Clone, Copy)]
struct Walk<'t> {
    /// The bytes from there on.
    rest: &'t [u8],
}

/// One text.
impl Walk<'_> {
    /// The byte at the place, in lower case. The end of the text ends its line too.
    fn byte(&self) -> u8 {
        self.rest.first().map_or(b'\n', u8::to_ascii_lowercase)
    }

    fn step(&mut self) {
        self.rest = self.rest.get(1..).unwrap_or_default();
    }

    fn skip_blanks(&mut self) {
        while self.byte() == b' ' {
            self.step();
        }
    }

    /// To the beginning of the next line.
    fn skip_line(&mut self) {
        while self.byte() != b'\n' {
            self.step();
        }
        self.step();
    }

    /// Walks over these bytes if they are next.
    fn take(&mut self, bytes: &[u8]) -> bool {
        let begins =
            self.rest.len() >= bytes.len() && self.rest[..bytes.len()].eq_ignore_ascii_case(bytes);
        if begins {
            self.rest = &self.rest[bytes.len()..];
        }
        begins
    }

    /// From the beginning of a line to the first byte that is not removed; whether there is one.
    fn find_line(&mut self) -> bool {
        while !self.rest.is_empty() {
            self.skip_blanks();
            if !self.is_removed() {
                return true;
            }
            self.skip_line();
        }
        false
    }

    /// Whether the line whose first nonblank byte is next is a comment, empty or the closing directive. A
    /// directive's next word is `parallel` or `end`.
    fn is_removed(mut self) -> bool {
        match self.byte() {
            b'!' if self.take(b"!$omp") => {
                self.skip_blanks();
                self.byte() == b'e'
            }
            b'!' | b'\n' => true,
            _ => false,
        }
    }

    /// If the line is an ending, in one word or in two: the letter that says which.
    fn ending(mut self) -> Option<u8> {
        if !self.take(b"end") {
            return None;
        }
        self.skip_blanks();
        let letter = self.byte();
        let is_ending = self.take(b"do") || self.take(b"if");
        self.skip_blanks();
        (is_ending && self.byte() == b'\n').then_some(letter)
    }

    /// Whether the line begins with the word `data`, which is no name.
    fn is_data(mut self) -> bool {
        self.take(b"data") && !is_of_word(self.byte())
    }

    /// From a literal's first digit to the first that is not a leading zero.
    fn skip_zeros(&mut self) {
        while self.byte() == b'0' && self.rest.get(1).is_some_and(u8::is_ascii_digit) {
            self.step();
        }
    }
}

fn is_of_word(byte: u8) -> bool {
    byte.is_ascii_alphanumeric() || byte == b'_'
}

/// Walks over a line of either text; whether they differ only in what is removed.
fn walk_line(one: &mut Walk, other: &mut Walk) -> bool {
    let same = match (one.ending(), other.ending()) {
        (None, None) if one.is_data() && other.is_data() => walk_data(*one, *other),
        (None, None) => walk_tokens(*one, *other),
        (first, second) => first == second,
    };
    one.skip_line();
    other.skip_line();
    same
}

fn walk_tokens(mut one: Walk, mut other: Walk) -> bool {
    loop {
        match (one.byte(), other.byte()) {
            (b'\n', b'\n') => return true,
            _ if !walk_token(&mut one, &mut other) => return false,
            _ => {}
        }
    }
}

/// Walks over a token of either and the blanks after it; whether they are the same, leading zeros aside. Of a sign
/// with more than one byte each is walked over by itself.
fn walk_token(one: &mut Walk, other: &mut Walk) -> bool {
    one.skip_zeros();
    other.skip_zeros();
    let first = one.byte();
    let goes_on = |byte: u8| match first {
        b'a'..=b'z' => is_of_word(byte),
        b'0'..=b'9' => byte.is_ascii_digit(),
        _ => false,
    };
    let mut same = first == other.byte() && first != b'\n';
    one.step();
    other.step();
    while same && (goes_on(one.byte()) || goes_on(other.byte())) {
        same = one.byte() == other.byte();
        one.step();
        other.step();
    }
    one.skip_blanks();
    other.skip_blanks();
    same
}

/// The same for data lines: `data`, the name, then copy by copy.
fn walk_data(mut one: Walk, mut other: Walk) -> bool {
    if !walk_token(&mut one, &mut other) || !walk_token(&mut one, &mut other) {
        return false;
    }
    let (mut one, mut other) = (Copies::of(one), Copies::of(other));
    loop {
        match (one.next(), other.next()) {
            (Some(one), Some(other)) if walk_value(one, other) => {}
            (None, None) => return true,
            _ => return false,
        }
    }
}

/// A literal with its sign, or without one.
fn walk_value(mut one: Walk, mut other: Walk) -> bool {
    let is_sign = |walk: &Walk| matches!(walk.byte(), b'+' | b'-');
    if (is_sign(&one) || is_sign(&other)) && !walk_token(&mut one, &mut other) {
        return false;
    }
    walk_token(&mut one, &mut other)
}

/// The values of a data line, each as often as it is given.
struct Copies<'t> {
    /// The value of the last item found, or what stands before the first.
    item: Walk<'t>,
    left: u32,
}

impl<'t> Copies<'t> {
    /// From before the first stroke.
    fn of(item: Walk<'t>) -> Self {
        Copies { item, left: 0 }
    }

    /// To the next item, which a comma or the first stroke stands before; nothing stands after the last stroke.
    fn find_item(&mut self) {
        while !matches!(self.item.byte(), b',' | b'/') {
            self.item.step();
        }
        self.item.step();
        self.item.skip_blanks();
        self.left = u32::from(self.item.byte() != b'\n');
        let mut number = 0;
        let mut ahead = self.item;
        while ahead.byte().is_ascii_digit() {
            number = 10 * number + u32::from(ahead.byte() - b'0');
            ahead.step();
        }
        ahead.skip_blanks();
        if ahead.take(b"*") {
            ahead.skip_blanks();
            (self.item, self.left) = (ahead, number);
        }
    }
}

impl<'t> Iterator for Copies<'t> {
    type Item = Walk<'t>;

    fn next(&mut self) -> Option<Walk<'t>> {
        if self.left == 0 {
            self.find_item();
        }
        self.left = self.left.checked_sub(1)?;
        Some(self.item)
    }
}
