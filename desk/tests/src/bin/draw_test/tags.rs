//! The tags of a page.

/// Elements without an end tag.
const VOID: [&str; 2] = ["!DOCTYPE", "meta"];

/// Elements whose contents are no HTML.
const RAW: [&str; 2] = ["style", "script"];

#[derive(Clone, Copy)]
pub struct Tag<'a> {
    pub name: &'a str,
    attributes: &'a str,
    pub closes: bool,
}

impl<'a> Tag<'a> {
    /// The value of an attribute.
    pub fn value(&self, name: &str) -> Option<&'a str> {
        let start = self.attributes.find(&format!("{name}=\""))? + name.len() + 2;
        self.attributes[start..].split('"').next()
    }

    pub fn number(&self, name: &str) -> Option<usize> {
        self.value(name)?.parse().ok()
    }

    /// Whether a class is among those of the element.
    pub fn has_class(&self, class: &str) -> bool {
        self.value("class").is_some_and(|classes| classes.split(' ').any(|one| one == class))
    }
}

/// All tags in their order.
pub fn tags(page: &str) -> Vec<Tag<'_>> {
    let (mut found, mut rest) = (Vec::new(), page);
    while let Some((_, behind)) = rest.split_once('<') {
        let (inner, after) = behind.split_once('>').unwrap_or((behind, ""));
        let closes = inner.starts_with('/');
        let inner = inner.trim_start_matches('/');
        let (name, attributes) = inner.split_once(' ').unwrap_or((inner, ""));
        found.push(Tag { name, attributes, closes });
        let end = format!("</{name}>");
        rest = match after.find(&end).filter(|_| RAW.contains(&name) && !closes) {
            Some(place) => &after[place..],
            None => after,
        };
    }
    found
}

/// How deep the elements stand within each other; nothing where they do not close as they open.
pub fn depth(tags: &[Tag]) -> Option<usize> {
    let (mut open, mut deepest) = (Vec::new(), 0);
    for tag in tags.iter().filter(|tag| !VOID.contains(&tag.name)) {
        match tag.closes {
            false => open.push(tag.name),
            true if open.pop() == Some(tag.name) => {}
            true => return None,
        }
        deepest = deepest.max(open.len());
    }
    open.is_empty().then_some(deepest)
}
