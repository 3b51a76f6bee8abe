//! The filters that commands give.

use crate::answers::Answers;
use osm_model::filter::Filter;
use osm_model::text::Text;
use osm_opl::texts::read_text;
use osm_reading::pieces::cut;
use std::alloc::Global;

/// The filter that words between single blanks name: the kinds that are kept, as `nw`, and then the
/// keys, rising, as lines spell them.
pub(crate) fn filter_of(alloc: Global, given: &[u8]) -> Option<Filter> {
    let (kinds, names) = cut(given, b' ');
    let mut keys = Vec::new(alloc);
    if let Some(names) = names {
        add_keys(alloc, names, &mut keys)?;
    }
    let nodes = kinds.contains(&b'n');
    let ways = kinds.contains(&b'w');
    Filter::new(nodes, ways, kinds.contains(&b'r'), keys).ok()
}

fn add_keys(alloc: Global, names: &[u8], keys: &mut Vec<Text>) -> Option<()> {
    for name in str::from_utf8(names).ok()?.split(' ') {
        keys.push(read_text(alloc, name.as_bytes()).ok()?).ok()?;
    }
    Some(())
}

impl Answers {
    /// Adds a line: whether the filter keeps nodes, ways and relations, and its keys.
    pub(crate) fn filter(&mut self, filter: &Filter) {
        let kinds = (filter.nodes(), filter.ways(), filter.relations());
        self.debug_part(&kinds);
        for key in filter.keys() {
            self.add(b" ");
            self.add(key.as_str().as_bytes());
        }
        self.add(b"\n");
    }
}
