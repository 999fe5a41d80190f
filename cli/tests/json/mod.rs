//! A small reader of JSON, strict where the format is: it panics at the first byte that does not belong.

pub enum Json {
    Null,
    Number(usize),
    Text(String),
    List(Vec<Json>),
    Fields(Vec<(String, Json)>),
}

impl Json {
    pub fn of(text: &str) -> Json {
        let mut reader = Reader { rest: text };
        let json = reader.value();
        reader.skip();
        assert_eq!(reader.rest, "", "nothing comes after the value");
        json
    }

    pub fn fields(&self) -> &[(String, Json)] {
        match self {
            Json::Fields(fields) => fields,
            _ => panic!("no object"),
        }
    }

    pub fn field(&self, name: &str) -> &Json {
        &self.fields().iter().find(|(found, _)| found == name).unwrap_or_else(|| panic!("no field {name}")).1
    }

    pub fn list(&self) -> &[Json] {
        match self {
            Json::List(list) => list,
            _ => panic!("no list"),
        }
    }

    pub fn text(&self) -> &str {
        match self {
            Json::Text(text) => text,
            _ => panic!("no text"),
        }
    }

    pub fn number(&self) -> usize {
        match self {
            Json::Number(number) => *number,
            _ => panic!("no number"),
        }
    }
}

struct Reader<'a> {
    rest: &'a str,
}

impl Reader<'_> {
    fn skip(&mut self) {
        self.rest = self.rest.trim_start_matches([' ', '\n', '\r', '\t']);
    }

    /// Takes this sign if it comes next.
    fn takes(&mut self, sign: &str) -> bool {
        self.skip();
        let after = self.rest.strip_prefix(sign);
        self.rest = after.unwrap_or(self.rest);
        after.is_some()
    }

    fn needs(&mut self, sign: &str) {
        assert!(self.takes(sign), "{sign} is missing before {:.20}", self.rest);
    }

    fn value(&mut self) -> Json {
        if self.takes("{") {
            Json::Fields(self.items("}", |reader| {
                let name = reader.name();
                reader.needs(":");
                (name, reader.value())
            }))
        } else if self.takes("[") {
            Json::List(self.items("]", Reader::value))
        } else if self.takes("null") {
            Json::Null
        } else if self.rest.starts_with('"') {
            Json::Text(self.name())
        } else {
            let length = self.rest.bytes().take_while(u8::is_ascii_digit).count();
            let (digits, rest) = self.rest.split_at(length);
            self.rest = rest;
            assert!(digits == "0" || !digits.starts_with('0'), "a number without a leading zero: {digits}");
            Json::Number(digits.parse().unwrap_or_else(|_| panic!("no value before {rest:.20}")))
        }
    }

    fn items<T>(&mut self, end: &str, item: impl Fn(&mut Self) -> T) -> Vec<T> {
        let mut items = Vec::new();
        if self.takes(end) {
            return items;
        }
        loop {
            items.push(item(self));
            if self.takes(end) {
                return items;
            }
            self.needs(",");
        }
    }

    /// A text without escapes: the tables have none.
    fn name(&mut self) -> String {
        self.needs("\"");
        let (name, rest) = self.rest.split_once('"').expect("the end of a text");
        assert!(name.bytes().all(|b| b >= b' ' && b != b'\\'), "a plain text: {name}");
        self.rest = rest;
        name.into()
    }
}
