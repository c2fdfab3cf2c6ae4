//! Documents of sections and texts over the original's maps: the same as `crates/attr_doc`, call by call.
use vecmap::VecMap;

/// A name whose `==` ignores the case of ASCII letters.
pub struct Name(pub String);

impl PartialEq for Name {
    fn eq(&self, other: &Name) -> bool {
        self.0.eq_ignore_ascii_case(&other.0)
    }
}

impl Eq for Name {}

#[derive(Default)]
pub struct Document {
    sections: VecMap<Name, VecMap<Name, String>>,
}

impl Document {
    pub fn set(&mut self, section: Name, name: Name, text: String) -> Option<String> {
        match self.sections.get_mut(&section) {
            Some(texts) => texts.insert(name, text),
            None => {
                let mut texts = VecMap::new();
                texts.reserve(1);
                self.sections.reserve(1);
                texts.insert(name, text);
                self.sections.insert(section, texts);
                None
            }
        }
    }

    pub fn get(&self, section: &Name, name: &Name) -> Option<&str> {
        match self.sections.get(section) {
            Some(texts) => texts.get(name).map(|text| text.as_str()),
            None => None,
        }
    }

    pub fn merge(&mut self, other: &mut Document) {
        self.sections.reserve(other.sections.len());
        for (name, texts) in other.sections.iter() {
            if let Some(there) = self.sections.get_mut(name) {
                there.reserve(texts.len());
            }
        }
        for (name, texts) in std::mem::take(&mut other.sections).into_vec() {
            self.move_section(name, texts);
        }
    }

    fn move_section(&mut self, name: Name, mut texts: VecMap<Name, String>) {
        match self.sections.get_mut(&name) {
            Some(there) => there.append(&mut texts),
            None => {
                self.sections.insert(name, texts);
            }
        }
    }

    pub fn same(&self, other: &Document) -> bool {
        self.sections == other.sections
    }

    pub fn len(&self) -> usize {
        self.sections.len()
    }
}
