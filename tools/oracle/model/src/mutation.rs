//! The mistakes that can be switched on, each one somebody could make.

/// Which mistake is on, if any.
#[derive(Clone, Copy, Debug, PartialEq, Eq)]
pub struct Switch(Option<usize>);

impl Switch {
    pub fn new(mutation: Option<usize>) -> Switch {
        Switch(mutation)
    }

    pub fn on(self, wrong: Wrong) -> bool {
        self.0 == Some(wrong as usize)
    }
}

macro_rules! mutations {
    ($($wrong:ident, $name:literal, $equal:literal;)*) => {
        #[derive(Clone, Copy, Debug, PartialEq, Eq)]
        pub enum Wrong {
            $($wrong,)*
        }

        /// The mistakes by name; true where one is equal in behaviour to the right one.
        pub const MUTATIONS: &[(&str, bool)] = &[$(($name, $equal),)*];
    };
}

mutations! {
    // Names written once.
    MarksKept, "marks stay over a rollback", false;
    OwnLookMarks, "the maker's own look marks its entry", false;
    NewestLeavesFirst, "of entries that leave the newest comes first", false;
    RolledBackLeave, "an entry that a rollback removes gives a line", false;
    UnusedUndone, "a rollback takes lines 0c back", false;
    UnusedIsReported, "a line 0c counts as a diagnostic of its field", false;
    UnusedUntold, "no line 0c", false;
    UnusedBeforeReports, "the lines 0c stand before the diagnostics", false;
    // Sizes and slices.
    WordsOneLess, "a work slice of 16,383 words suffices", false;
    WordsOneMore, "a work slice of 16,384 words is too small", false;
    FileOneMore, "a file of 65,537 bytes passes", false;
    FileOneLess, "a file of 65,536 bytes is too long", false;
    TwoBeforeOne, "refusal 2 before refusal 1", false;
    // Lines.
    LinesDecodedFirst, "all lines are decoded before the first frame is read", false;
    EmptyLineSkipped, "an empty line is skipped", false;
    LastLfSkipped, "an empty line after the query is skipped", false;
    KindBeforeLine, "the kind is judged before the line (4 before 3)", false;
    MissingQueryIsThree, "a missing query is refusal 3", false;
    EmptyFileIsThree, "an empty file is refusal 3", false;
    LfMayLack, "the last line may lack its LF", false;
    CrDropped, "a CR before the LF is dropped", false;
    OddAccepted, "the last digit of an odd line is dropped", false;
    SpacesDropped, "white space around a line is dropped", false;
    LineOneMore, "a line of 513 bytes passes", false;
    LineOneLess, "a line of 512 bytes is too long", false;
    KindNotInLength, "the kind byte of a name is not counted to the 512", false;
    LengthInDigits, "512 counts digits and not bytes", false;
    UpperCase, "upper-case digits pass", false;
    LetterG, "g passes as a digit", false;
    BackQuote, "the character before a passes as a digit", false;
    Colon, "the character after 9 passes as a digit", false;
    // Kinds and counts.
    AfterQueryIgnored, "what follows the query is ignored", false;
    FiveBeforeFour, "the count is judged before the kind's place (5 before 4)", false;
    FiveAfterContent, "the count is judged after the content (5 after 6 to 10)", false;
    AnyFirstKind, "any kind may come first", false;
    LimitsTwice, "the limits may come twice", false;
    QueryTwice, "a query may follow a query", false;
    StrictlyRising, "no kind may come twice", false;
    TypeAfterPredicate, "a type may follow a predicate", false;
    NameAfterType, "a name may follow a type", false;
    NamesOneMore, "257 names pass", false;
    TypesOneMore, "257 types pass", false;
    PredicatesOneMore, "129 predicates pass", false;
    NodesOneMore, "513 nodes pass", false;
    NamesOneLess, "256 names are too many", false;
    TypesOneLess, "256 types are too many", false;
    PredicatesOneLess, "128 predicates are too many", false;
    NodesOneLess, "512 nodes are too many", false;
    // Forms.
    NothingAfterQuery, "nothing may follow a query", false;
    LimitsAfterQuery, "the limits may come again after a query", false;
    SchemaAfterQuery, "names, types and predicates may follow a query", false;
    NodesLast, "a file may end with nodes after a query", false;
    QueriesOneMore, "65 queries pass", false;
    QueriesOneLess, "64 queries are too many", false;
    ThirteenIsFive, "a query too many is refusal 5", false;
    ThirteenBeforeFour, "the number of queries is judged before the kind's place (13 before 4)", false;
    ThirteenAfterContent, "the number of queries is judged after the content (13 after 6 to 9)", false;
    ThirteenAtNode, "a node after the 64th query is refusal 13", false;
    NodesOverAll, "the 512 nodes are for the whole file", false;
    OtherQuerysNode, "a node's number may be one that the query before has", false;
    NamedOverAll, "a node's number that an earlier query named counts as named", false;
    RunWhileRead, "a query runs before the next is read (11 before 3 to 10)", false;
    VisitsOverAll, "the visits of all queries are counted together", false;
    UnknownsOverAll, "unknowns are numbered on from query to query", false;
    NamesOfBefore, "a query sees the names of the one before it", false;
    TypesOfBefore, "an untyped node keeps the type of the query before", false;
    ReportsOfBefore, "a query's diagnostics come again with the next", false;
    OneRunsOut, "a query that passes its visits is left out, and the others are answered", false;
    TwelveBeforeEleven, "a slice full at one query is told before a later query's 11", false;
    NumberedAlone, "a query alone gets a line 0b", false;
    Unnumbered, "no query gets a line 0b", false;
    FirstUnnumbered, "the first query gets no line 0b", false;
    NumbersFromOne, "queries are numbered from 1", false;
    NumberOneByte, "a query's number has one byte", false;
    NumberAfter, "the line 0b stands after its query's lines", false;
    FirstQueryOnly, "only the first query is answered", false;
    LastQueryOnly, "only the last query is answered", false;
    QueriesBackwards, "the last query is answered first", false;
    ReportsLast, "all queries' types come before the first diagnostic", false;
    LengthByQuery, "12 goes by each query's lines alone", false;
    NumbersUncounted, "the lines 0b are not counted to the answer", false;
    // Frames.
    NineBeforeSix, "references are judged while the frame is cut (9 before 6)", false;
    TenBeforeNine, "repeats are judged before references (10 before 9)", false;
    FlagNotZero, "any flag but 00 promises a value type", false;
    ShapeElevenIsError, "node shape 11 passes", false;
    ListTailIgnored, "a list's incomplete last entry is ignored", false;
    StatementFiveIsCompare, "statement 05 passes", false;
    LongFrameAccepted, "bytes after a frame's end are ignored", false;
    LimitsMayBeLonger, "bytes after the limits are ignored", false;
    TermLimitOneByte, "only the low byte of the term limit is kept", false;
    // Predicate numbers.
    TypeReferenceShort, "a type's predicate number has two bytes", false;
    NodeReferenceShort, "a node's predicate number has two bytes", false;
    TypeNumberCut, "of a type's predicate number the low half is kept", false;
    NodeNumberCut, "of a node's predicate number the low half is kept", false;
    FoundByLowHalf, "a predicate is found by the low half of its number", false;
    FactsEqualByLowHalf, "two facts are of one predicate if their low halves are alike", false;
    NumberWrittenShort, "an answer writes a predicate's number in two bytes", false;
    NumberWrittenCut, "an answer writes the low half of a predicate's number", false;
    // Names and texts.
    EmptyNameRefused, "the empty name is refused", false;
    NamesMayRepeat, "a name may be given twice", false;
    NamesFoldCase, "names differ only where their lower case does", false;
    NamesByPrefix, "a name that begins with an earlier one counts as given", false;
    EmptyNameTwice, "the empty name may be given twice", false;
    SevenIsEight, "the numbers 7 and 8 are swapped", false;
    // A text that came before is sound, so both never hold.
    EightBeforeSeven, "the repeat is judged before the text", true;
    OverlongTwo, "c0 and c1 pass", false;
    OverlongThree, "e0 80 passes", false;
    OverlongFour, "f0 80 passes", false;
    AboveTenFfff, "f4 90 passes", false;
    FirstF5, "f5 to f7 pass", false;
    FirstF8, "f8 to ff stand alone", false;
    StrayContinuation, "80 to bf stand alone", false;
    SurrogatesPass, "d800 to dfff pass", false;
    HighHalvesPass, "d800 to dbff pass", false;
    EdRefused, "every character that begins with ed is refused", false;
    PairsOnlyRefused, "halves are refused only where they make a pair", false;
    PairsPass, "two halves that make a pair pass as one character", false;
    SevenIsOverlong, "7f wants a second byte", false;
    TruncatedTail, "a sequence may be cut off by the text's end", false;
    LaterUntested, "later bytes are not judged", false;
    ThirdUntested, "third and fourth bytes are not judged", false;
    CountedByBytes, "characters are counted by bytes", false;
    CountedByUnits, "characters are counted by 16-bit units", false;
    // References and repeats.
    PrefixNameUntested, "a prefix's name is not looked at", false;
    PredicateNameUntested, "a predicate's name is not looked at", false;
    TypeMayNameItself, "a type may name itself", false;
    PredicateTypeStrict, "a predicate may not name the last type", false;
    TypePredicateMustExist, "a type's predicate must exist", false;
    NodePredicateMustExist, "a node's predicate must exist", false;
    NodeMayNameItself, "a node may name itself", false;
    LastNodeUnnamed, "the query may not name the last node", false;
    NamedTwice, "a node may be named twice", false;
    NamedTwiceInFrame, "a node may be named twice in one frame", false;
    NamedBelowAndByQuery, "a node under another may be named by the query", false;
    HeadNamedAgain, "the head may be named by a statement", false;
    FieldsMayRepeat, "a record type may repeat a field", false;
    AlternativeNamesOnce, "a union type may not repeat a name", false;
    DiscriminantsShort, "discriminants are compared by their low 16 bits", false;
    NeighboursCompared, "only neighbouring discriminants are compared", false;
    DiscriminantsMayRepeat, "a union type may repeat a discriminant", false;
    PredicateNamesOnce, "two predicates may not share a name", false;
    NodeFieldsOnce, "a record node may not repeat a field", false;
    // Visits.
    VisitsOneMore, "one visit past the limit is made", false;
    VisitsOneLess, "the last visit of the limit is not made", false;
    LinksCounted, "each link of a chain is a visit", false;
    UnifyUncounted, "unify is not counted", false;
    OccursUncounted, "occurs is not counted", false;
    OrderableUncounted, "orderable is not counted", false;
    // Unification.
    PoisonAnywhere, "Error at any depth makes two types equal", false;
    VarBesideErrorFree, "a Var beside Error is left unbound", false;
    ErrorMismatches, "Error does not fit a scalar", false;
    SameVarOccurs, "an unknown against itself is an infinite type", false;
    ExpectedBound, "of two unknowns the expected one is bound", false;
    YoungerBound, "of two unknowns the younger one is bound", false;
    VarsWithoutOccurs, "two unknowns are bound without the occurs check", false;
    BytesAreStrings, "bytes and strings are equal", false;
    FactsAlike, "facts of any two predicates are equal", false;
    FailedRecordUndone, "a failed record takes its bindings back", false;
    CountsIgnored, "field counts are not compared", false;
    CountIsUnknownField, "unequal field counts are an unknown field", false;
    NamesFirst, "all field names are sought before any field is unified", false;
    FieldsZipped, "fields are compared by their place", false;
    LastFieldSought, "the last field of a name is sought", false;
    AbsentFieldMismatch, "an absent field is a type mismatch", false;
    FieldSidesSwapped, "found and expected are swapped inside records", false;
    SoughtFromBoth, "record names are sought from both sides", false;
    UnionsZipped, "alternatives are compared by their place", false;
    DeclarationOrder, "discriminants go in declaration order", false;
    SignedDiscriminants, "discriminants are ordered as signed numbers", false;
    FallingDiscriminants, "discriminants go downwards", false;
    PresenceFirst, "all discriminants are sought before any payload is unified", false;
    ExtraAlternativePasses, "an alternative of one side alone passes", false;
    UnionNamesFree, "alternatives' names are not compared", false;
    UnionCodePasses, "a payload's failure keeps its own code", false;
    NoOccurs, "the occurs check is left out", false;
    OccursUnresolved, "occurs does not follow bindings", false;
    OccursSkipsUnions, "occurs does not enter unions", false;
    OccursGoesOn, "occurs goes on after the first find", false;
    // Order.
    OrderableUnresolved, "orderable does not follow bindings", false;
    FactsOrderable, "facts have an order", false;
    VarsUnorderable, "unknowns have no order", false;
    ErrorUnorderable, "Error has no order", false;
    UnionsUnorderable, "unions have no order", false;
    RecordsUnorderable, "records have no order", false;
    BytesUnorderable, "bytes have no order", false;
    EmptyUnorderable, "an empty record or union has no order", false;
    OrderableGoesOn, "orderable goes on after the first false", false;
    RightIntroducedFirst, "a comparison introduces its right side first", false;
    NotIntroduced, "a comparison introduces its left side alone", false;
    NoSideIntroduced, "a comparison introduces neither side", false;
    RightInferredFirst, "a comparison infers its right side first", false;
    LeftIsFound, "a comparison unifies its left side as found", false;
    FailedCompareUndone, "a failed comparison is undone", false;
    MismatchAtLeft, "a comparison's mismatch is reported at the left", false;
    OrderAskedAfterMismatch, "a mismatched comparison is asked for its order too", false;
    OrderOfRight, "the right side is asked for its order", false;
    NoOrderAtRight, "a missing order is reported at the right", false;
    // Undoing.
    // Only a free unknown is set and only an untyped node annotated.
    UndoneToNothing, "undoing clears instead of restoring", true;
    BindingsKept, "a rollback keeps bindings", false;
    AnnotationsKept, "a rollback keeps node types", false;
    NumbersGivenAgain, "a rolled-back unknown's number is given away again", false;
    ReportsUndone, "a rollback takes diagnostics back", false;
    EnvironmentKept, "a rollback keeps the environment", false;
    // Statements.
    HeadFirst, "the head is inferred first", false;
    FirstStatementOnly, "only the first statement is handled", false;
    WildcardHeadUntyped, "a wildcard head is not inferred", false;
    StatementInferred, "a statement is inferred as a value", false;
    NegationScoped, "a negation's names end with it", false;
    // No name stands twice in the environment.
    OldestFirst, "a name is looked up oldest first", true;
    GeneratorUnifies, "a generator unifies its branches", false;
    NoBranchIsUnknown, "a generator without branches is an unknown", false;
    BranchesInferred, "a generator's branches are inferred as values", false;
    FirstBranchsType, "a generator has its first branch's type", false;
    BoundIsGenerator, "the right side of a bind is a generator", false;
    WildcardUntyped, "a bound wildcard stays untyped", false;
    WildcardUnknown, "a bound wildcard gets an unknown of its own", false;
    FailedBindUndone, "a failed bind is undone", false;
    ValueBeforePattern, "a destructuring infers its right side first", false;
    PatternIsFound, "a destructuring unifies its left side as found", false;
    FailedPatternUndone, "a failed destructuring is undone", false;
    PatternBlamed, "a failed destructuring is reported at the left", false;
    LiteralLeftTyped, "a literal on the left is typed", false;
    RightOfLiteralSkipped, "the right side of a literal is not inferred", false;
    FuzzyIsLiteral, "a fuzzy term on the left is treated as a literal", false;
    ErrorLeftReported, "an error node on the left is reported", false;
    ErrorLeftTyped, "an error node on the left is typed", false;
    RightBeforeVariable, "a bind infers its right side before it introduces its left", false;
    AlwaysNewVariable, "a bind always makes a new unknown", false;
    LeftVariableUntyped, "a bound variable stays untyped", false;
    VariableIsFound, "a bind unifies its variable as found", false;
    VariableBlamed, "a failed bind is reported at the left", false;
    FailedDenyUndone, "a failed denial is undone", false;
    DeniedWildcardTyped, "a denied wildcard is typed as a bound one", false;
    DenyDestructures, "a denial destructures records", false;
    DeniedLeftSkipped, "a denied pattern is not inferred", false;
    WildcardNotDestructured, "a wildcard cannot be destructured into", false;
    EmptyNotDestructured, "an empty record cannot be destructured into", false;
    AnyRecordDestructured, "any record with fields can be destructured into", false;
    InnerNotDestructured, "an inner record cannot be destructured into", false;
    LiteralsDestructured, "literals can be destructured into", false;
    // Inference.
    RejectedIsUnknown, "a rejected node is an unknown", false;
    BytesLiteralIsString, "a bytes literal is a string", false;
    NeverIsError, "Never is Error", false;
    RecordsSorted, "inferred records are sorted by name", false;
    RepeatsDropped, "a repeated field is dropped", false;
    UnknownAfterBranches, "a disjunction's unknown is made after its branches", false;
    LastBranchsType, "a disjunction has its last branch's type", false;
    BranchIsExpected, "a disjunction unifies its branches as expected", false;
    DisjunctionBlamed, "a branch's mismatch is reported at the disjunction", false;
    SubqueryStartsEmpty, "a subquery does not see outer names", false;
    WildcardInSubquery, "a subquery's wildcard head is rejected", false;
    SubqueryHeadOutside, "a subquery's head is inferred outside its scope", false;
    SubqueryKept, "a subquery's names are kept", false;
    AbsentKeyInferred, "the key of an absent predicate's fact is inferred", false;
    AbsentFactIsError, "a fact of an absent predicate is Error", false;
    OperandsFree, "operands need not be integers", false;
    IntIsFound, "an operand is unified as expected", false;
    ArithBlamed, "an operand's mismatch is reported at the sum", false;
    ArithStops, "a sum ends at its first mismatch", false;
    DistanceBelow, "a fuzzy distance must be below the limit", false;
    DistanceZero, "fuzzy distance 0 passes", false;
    TermBelow, "a fuzzy term must be shorter than the limit", false;
    TermFirst, "a fuzzy term is judged before its distance", false;
    OneFuzzyFault, "a bad distance hides a long term", false;
    // Accesses.
    ShadowThroughFacts, "shadowing looks through a fact key", false;
    ShadowInUnions, "shadowing looks into a union key", false;
    KeyCalledValue, "a key access called value is a value access", false;
    ShadowIgnored, "shadowing is not looked at", false;
    ShadowTypesKey, "a shadowed value access reads the key's field", false;
    AbsentValueSilent, "a value access on an absent predicate is silent", false;
    ValueOfRecordUnknown, "a value access on a record is an unknown field", false;
    AbsentKeyReported, "a key access on an absent predicate is reported", false;
    UnionsHaveFields, "a key access on a union is an unknown field", false;
    LastFieldRead, "the last field of a name is read", false;
    AccessThroughFacts, "a key access looks through a fact key", false;
    KeyNoRecordMismatch, "a key access on a key without fields is a mismatch", false;
    UnresolvedIsUnknown, "an unresolved access is an unknown", false;
    SelectThroughFacts, "a select looks through a fact", false;
    LastAlternativeSelected, "the last alternative of a name is selected", false;
    SelectUnknownField, "an unknown alternative in a select is an unknown field", false;
    OpenSelectNoUnion, "a select on an unknown is not-a-union", false;
    // Checking.
    // Only schema types are expected, and none of them is Error.
    CheckedAgainstError, "a node is visited even against Error", true;
    CheckedWildcardUnknown, "a checked wildcard makes an unknown", false;
    RecordInferred, "a record pattern is inferred against a record", false;
    UnionInferred, "a record pattern is inferred against a union", false;
    BranchesChecked, "a disjunction's branches are checked one by one", false;
    AllFieldsWanted, "a record pattern must name all fields", false;
    UnknownFieldAtRecord, "an unknown field is reported at the record", false;
    UnknownFieldInferred, "an unknown field's value is inferred", false;
    FieldsNotUndone, "a record field is rolled back only where its own unify failed", false;
    FaultyRecordUntyped, "a record with a faulty field stays untyped", false;
    CheckedRecordUntyped, "a checked record stays untyped", false;
    ArityAboveOne, "an empty record fits a union", false;
    ArityMismatch, "a wrong arity is a type mismatch", false;
    ArityVisits, "the fields of a wrong arity are inferred", false;
    ArityTyped, "a record of the wrong arity is typed", false;
    LastAlternativeChecked, "the last alternative of a name is checked", false;
    AlternativeAtValue, "an unknown alternative is reported at its value", false;
    AlternativeIsField, "an unknown alternative is an unknown field", false;
    UnknownAlternativeTyped, "a record of an unknown alternative is typed", false;
    PayloadUndone, "a faulty payload is rolled back", false;
    FaultyUnionUntyped, "a record with a faulty payload stays untyped", false;
    ExpectedIsFound, "a check unifies the expected type as found", false;
    // A rollback leaves diagnostics alone.
    ReportedBeforeRollback, "a check reports before it rolls back", true;
    InferredKept, "a failed check is not rolled back", false;
    OnlyUnifyUndone, "a failed check takes back the unification alone", false;
    // Messages.
    MismatchResolved, "a mismatch shows its types resolved", false;
    SidesExchanged, "expected and found are exchanged in the text", false;
    OuterRecordShown, "a mismatch inside a record shows the records", false;
    NoOrderUnresolved, "a missing order shows its type unresolved", false;
    NoOrderOutermost, "a missing order shows its type with the outermost binding alone", false;
    NoOrderAtEnd, "a missing order shows its type with the last bindings", false;
    DifferenceDropped, "the difference of two unions is not shown", false;
    GreatestDifference, "the greatest discriminant that differs is shown", false;
    InnerUnionShown, "a payload's difference shows the inner unions", false;
    RenamedExchanged, "the names of a renamed alternative are exchanged", false;
    FieldOfExpected, "an unknown field is named as the expected side has it", false;
    SignedShown, "discriminants are shown as signed numbers", false;
    UnionsShownSorted, "a message shows a union by discriminant", false;
    CommaBetween, "a message separates alternatives by commas", false;
    FactsUnnamed, "a message shows no predicate's name", false;
    FactsByNumber, "a message shows the name that has the predicate's number", false;
    FactsUnquoted, "a message shows a predicate's name without quotes", false;
    AbsentFactMark, "a message shows a fact of an absent predicate as ?", false;
    ErrorShownUnknown, "a message shows Error as an unknown type", false;
    UnknownsNumbered, "a message shows an unknown's number", false;
    NamesEscaped, "a message shows names escaped", false;
    UsualLimits, "a message shows the fuzzy limits 2 and 32 for all files", false;
    TermInBytes, "a message counts a fuzzy term's bytes", false;
    DashIsHyphen, "the long dash is a hyphen", false;
    DashIsByte, "the long dash is one byte", false;
    DeniedAsBound, "a denied literal has the text of a bound one", false;
    DeniedAsMatched, "a denied pattern has the text of a matched one", false;
    MessagesAfter, "the messages follow all diagnostics of their query", false;
    FirstMessageOnly, "only a query's first diagnostic has a message", false;
    MessagesUncounted, "the messages are not counted to the answer", false;
    MessageCut, "a message is cut at 511 bytes", false;
    // Visits told.
    VisitsUntold, "no query gets a line 09", false;
    VisitsToldOnce, "only the last query gets a line 09", false;
    VisitsToldFirst, "the line 09 stands before the types", false;
    VisitsBeforeReports, "the line 09 stands before the diagnostics", false;
    VisitsOfTheFile, "the line 09 has the visits of all queries so far", false;
    VisitsLeftTold, "the line 09 has the visits left", false;
    VisitsInTwoBytes, "the line 09 has two bytes of the visits", false;
    VisitsLineUncounted, "the lines 09 are not counted to the answer", false;
    // The answer.
    AnswerOneMore, "an answer one byte longer than the slice passes", false;
    AnswerOneLess, "an answer as long as the slice is too long", false;
    LfsUncounted, "the LFs are not counted to the answer", false;
    ReportsBySpan, "diagnostics go by their spans", false;
    ReportsOnce, "a node has one diagnostic at most", false;
    SpanSwapped, "a span's ends are swapped", false;
    SpanLength, "a span is written as start and length", false;
    WrittenUnresolved, "types are written without the bindings", false;
    InnerUnresolved, "types are written with the outermost binding alone", false;
    UnionsWrittenSorted, "unions are written by discriminant", false;
}
