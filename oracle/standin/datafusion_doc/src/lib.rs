//! A stand-in for `datafusion_doc`: documentation is taken and dropped.

#[derive(Debug, Clone, PartialEq, Eq, Hash)]
pub struct DocSection(&'static str);

pub mod window_doc_sections {
    use crate::DocSection;

    pub const DOC_SECTION_ANALYTICAL: DocSection = DocSection("analytical");
    pub const DOC_SECTION_RANKING: DocSection = DocSection("ranking");
}

#[derive(Debug, Clone, PartialEq, Eq, Hash)]
pub struct Documentation;

pub struct DocumentationBuilder;

impl Documentation {
    pub fn builder(
        _section: DocSection,
        _description: &str,
        _syntax: &str,
    ) -> DocumentationBuilder {
        DocumentationBuilder
    }
}

impl DocumentationBuilder {
    pub fn with_argument(self, _name: &str, _description: &str) -> Self {
        self
    }

    pub fn with_sql_example(self, _example: &str) -> Self {
        self
    }

    pub fn build(self) -> Documentation {
        Documentation
    }
}
