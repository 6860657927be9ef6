// What html5ever 0.40.1 asks of markup5ever, over Debian's older one: the queue behind `&self`, `TokenizerResult`, `ns!` by path, and
// 216 names in place of the published list. All else is the older crate's own, C1_REPLACEMENTS among it.
pub use older::{interface, local_name, namespace_url, serialize, small_char_set, tendril};
pub use older::{Attribute, LocalName, Namespace, Prefix, QualName, SmallCharSet};

pub mod buffer_queue;
pub mod data;

// What a tokenizer answers to a feed.
pub enum TokenizerResult<Handle> {
    Done,
    Script(Handle),
    EncodingIndicator(tendril::StrTendril),
}

// A namespace by its prefix. The older macro finds `namespace_url!` only where that was imported too.
#[macro_export]
macro_rules! ns {
    () => {
        $crate::namespace_url!("")
    };
    (html) => {
        $crate::namespace_url!("http://www.w3.org/1999/xhtml")
    };
    (xml) => {
        $crate::namespace_url!("http://www.w3.org/XML/1998/namespace")
    };
    (xmlns) => {
        $crate::namespace_url!("http://www.w3.org/2000/xmlns/")
    };
    (xlink) => {
        $crate::namespace_url!("http://www.w3.org/1999/xlink")
    };
    (svg) => {
        $crate::namespace_url!("http://www.w3.org/2000/svg")
    };
    (mathml) => {
        $crate::namespace_url!("http://www.w3.org/1998/Math/MathML")
    };
}
