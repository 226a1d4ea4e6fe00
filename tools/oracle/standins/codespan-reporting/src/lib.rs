//! Stand-in for the crate `codespan-reporting`: the diagnostic types that diag.rs uses.

pub mod diagnostic {
    use std::ops::Range;

    /// From the mildest to the gravest, so that the derived order is the one diag.rs asks for.
    #[derive(Debug, Clone, Copy, PartialEq, Eq, PartialOrd, Ord)]
    pub enum Severity {
        Help,
        Note,
        Warning,
        Error,
        Bug,
    }

    #[derive(Debug, Clone, Copy, PartialEq, Eq)]
    pub enum LabelStyle {
        Primary,
        Secondary,
    }

    #[derive(Debug, Clone, PartialEq)]
    pub struct Label<FileId> {
        pub style: LabelStyle,
        pub file_id: FileId,
        pub range: Range<usize>,
        pub message: String,
    }

    impl<FileId> Label<FileId> {
        pub fn primary(file_id: FileId, range: impl Into<Range<usize>>) -> Self {
            Label {
                style: LabelStyle::Primary,
                file_id,
                range: range.into(),
                message: String::new(),
            }
        }
    }

    #[derive(Debug, Clone, PartialEq)]
    pub struct Diagnostic<FileId> {
        pub severity: Severity,
        pub code: Option<String>,
        pub message: String,
        pub labels: Vec<Label<FileId>>,
        pub notes: Vec<String>,
    }

    impl<FileId> Diagnostic<FileId> {
        pub fn error() -> Self {
            Diagnostic {
                severity: Severity::Error,
                code: None,
                message: String::new(),
                labels: Vec::new(),
                notes: Vec::new(),
            }
        }

        pub fn with_code(mut self, code: impl Into<String>) -> Self {
            self.code = Some(code.into());
            self
        }

        pub fn with_message(mut self, message: impl Into<String>) -> Self {
            self.message = message.into();
            self
        }

        pub fn with_label(mut self, label: Label<FileId>) -> Self {
            self.labels.push(label);
            self
        }
    }
}
