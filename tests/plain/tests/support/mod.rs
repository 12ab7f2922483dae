//! A small reader of the JSON that the vectors are written in: no fractions, no escapes, no null.

#[derive(Debug, Clone, PartialEq)]
pub enum Json {
    Number(i64),
    Text(String),
    List(Vec<Json>),
    Object(Vec<(String, Json)>),
}

impl Json {
    pub fn read(line: &str) -> Json {
        Reader { rest: line.trim() }.value()
    }

    pub fn get(&self, name: &str) -> Option<&Json> {
        let Json::Object(fields) = self else { return None };
        fields.iter().find(|(field, _)| field == name).map(|(_, value)| value)
    }

    pub fn number(&self) -> i64 {
        let Json::Number(number) = self else { panic!("no number: {self:?}") };
        *number
    }

    pub fn text(&self) -> &str {
        let Json::Text(text) = self else { panic!("no text: {self:?}") };
        text
    }

    pub fn list(&self) -> &[Json] {
        let Json::List(list) = self else { panic!("no list: {self:?}") };
        list
    }
}

struct Reader<'a> {
    rest: &'a str,
}

impl Reader<'_> {
    fn take(&mut self, wanted: char) -> bool {
        let rest = self.rest.trim_start();
        let taken = rest.strip_prefix(wanted);
        self.rest = taken.unwrap_or(rest);
        taken.is_some()
    }

    fn value(&mut self) -> Json {
        if self.take('{') {
            Json::Object(self.items('}', |reader| {
                let name = reader.value().text().to_string();
                assert!(reader.take(':'));
                (name, reader.value())
            }))
        } else if self.take('[') {
            Json::List(self.items(']', Reader::value))
        } else if self.take('"') {
            let (text, rest) = self.rest.split_once('"').expect("a text that ends");
            self.rest = rest;
            Json::Text(text.to_string())
        } else {
            let stop = self.rest.find([',', ']', '}']).unwrap_or(self.rest.len());
            let (digits, rest) = self.rest.split_at(stop);
            self.rest = rest;
            Json::Number(digits.trim().parse().expect("a whole number"))
        }
    }

    fn items<T>(&mut self, close: char, item: impl Fn(&mut Self) -> T) -> Vec<T> {
        let mut items = Vec::new();
        while !self.take(close) {
            items.push(item(self));
            self.take(',');
        }
        items
    }
}
