//! Misreadings of the contract (docs/CONTRACT.md), each a switch.

/// One misreading. The first five are the traps that document 01 lists.
#[derive(Clone, Copy, Debug, PartialEq, Eq)]
pub enum Trap {
    /// A quotient edge where only some member has it.
    SomeMemberHasEdge,
    /// Edges to little brothers dropped by the source's prose, not its table.
    LittleBrothersByProse,
    /// "Some" and "every" exchanged in the rows of two different owners.
    MixedRowsExchanged,
    /// A pair is unmarked while the pass still runs.
    UnmarkDuringPass,
    /// Only closed walks of one link are judged.
    SelfLoopsOnly,

    /// Edge ends are checked before owners.
    EndsBeforeOwners,
    /// The first bad edge end is searched edge by edge, not word by word.
    EndsEdgeByEdge,
    /// An edge equal to an earlier one is refused.
    RepeatRefused,
    /// Repeats count as different edges.
    RepeatsCounted,
    /// A repeat counts as a different edge where it doesn't follow its equal at once.
    RepeatCountedApart,
    /// A call that writes a table gives its different edges too.
    DifferentEverywhere,
    /// A vertex without an edge is reported by its word.
    SinkAsWord,
    /// A table longer than its sizes say is taken.
    LongTableTaken,
    /// One vertex more than the limit is taken.
    OneVertexMore,

    /// Pass 0 marks pairs of unequal priority too.
    PassZeroMarksAll,
    /// The last pass isn't counted.
    LastPassUncounted,
    /// The spare buffer keeps its old content.
    SpareLeftOld,
    /// Lent memory beyond what is written is set to 0.
    BeyondCleared,
    /// The order is written before the lengths of the later buffers are checked.
    OrderBeforeLengths,
    /// The order's passes are given by the calls above it too.
    PassesEverywhere,
    /// Vertices and edges change places in the answer.
    CountsExchanged,

    /// The first of eight marks is a byte's highest bit.
    HighestBitFirst,
    /// Marks and spare need a byte for each mark.
    ByteForEachMark,
    /// Marks and spare need n × n / 8 bytes, rounded down.
    LengthsRoundedDown,
    /// Unused bits of the last byte keep their old content.
    UnusedLeftOld,
    /// The byte behind the last is set to 0.
    NextByteCleared,
    /// A relation's unused bits are ignored.
    UnusedTaken,
    /// A set unused bit has the first byte for its place.
    UnusedAtTheFirst,
    /// A set unused bit has a place as if it were a mark.
    UnusedAsMark,
    /// Bits of the bytes beyond the last one needed are judged too.
    BitsBeyondJudged,
    /// A failing pair is told before a set unused bit.
    PairsBeforeUnused,
    /// A marked pair of unequal priorities passes if it passes the test.
    UnequalPrioritiesPass,

    /// Classes are numbered by their highest member.
    ClassesByHighest,
    /// A class has the owner of its highest member.
    OwnerOfHighest,
    /// A quotient edge wherever the lowest member has one.
    LowestMemberDecides,
    /// The output's length is checked against the result, not the input.
    OutputByResult,
    /// The output's length is checked against the different edges.
    OutputByDifferent,
    /// A quotient edge that comes from a repeated edge stands twice.
    RepeatWritten,
    /// The edges of a class are listed by descending target.
    TargetsDescending,
    /// Edges are listed by target before source.
    TargetBeforeSource,
    /// The last edge of a class that has several is missing.
    LastTargetMissing,

    /// Only positions that can be reached from position 0 are judged.
    ReachableOnly,
    /// One link is enough at the opponent's positions too.
    OneAnswerEnough,
    /// A repeated edge of the opponent asks for as many links.
    RepeatAsksTwice,
    /// A player above 1 counts as Odd where a plan is judged.
    OthersAsOdd,
    /// The positions and links of a plan have no upper limits.
    PlanUnlimited,
    /// Link ends are checked before the vertices of positions.
    LinkEndsFirst,
    /// The first bad link end is searched link by link.
    LinkEndsTogether,
    /// The highest priority of a closed walk decides.
    HighestDecides,
    /// The lowest position of a bad walk is named, whatever its priority.
    LowestOnWalk,
    /// The plan is judged for Even whoever the player is.
    PlayerFixed,

    /// From the opponent's vertex to the player's, the first link that keeps decides, then the vertex.
    LinksBeforeVertices,
    /// Odd's vertices count as Even's where Odd's plan is carried, and Even's as Odd's.
    OwnExchangedForOdd,
    /// The start must be below the vertex for Odd too.
    OrderNotTurnedForOdd,
    /// An own move follows the last link.
    LastOwnLink,
    /// The last link that keeps answers the opponent.
    LastKeepingLink,
    /// At own vertices the highest successor that keeps is taken.
    HighestSuccessor,
    /// A pair found last is followed first.
    DepthFirst,
    /// A repeated edge gives as many links.
    RepeatGivesLinks,
    /// The lengths are checked after the plan.
    PlanBeforeLengths,
    /// The order is written before the plan is judged.
    OrderBeforePlan,
    /// The order isn't written before a refusal of the carrying.
    OldAfterCarrying,
    /// The output is written as far as it goes before its length is checked.
    OutputBeforeLength,
    /// The number of links has no limit of its own.
    LinksUnlimited,
    /// The vertex is held to the number of classes.
    VertexAmongClasses,
    /// The plan is judged on the quotient game.
    PlanOnQuotient,

    /// The output's length is checked before the numbers' ranges.
    LengthBeforeRange,
    /// The drawn edges have no limit of their own.
    DrawnEdgesUnlimited,
    /// A vertex draws its owner before its priority.
    OwnerBeforePriority,
    /// Targets are drawn modulo n - 1.
    LastVertexNoTarget,
    /// A draw is of the state before the step.
    OldStateDrawn,
    /// A draw is the low half of the state.
    LowHalfDrawn,

    /// A converted priority is counted down from the highest, even or odd.
    HighestItself,
    /// A converted priority is counted down from the next even number but one.
    EvenTooLarge,
    /// A highest priority of 65,535 is refused whatever the others are.
    AnyOversize,
    /// A priority 0 that doesn't fit is named by its vertex.
    OversizeAsVertex,
    /// The priorities are checked before the output's length.
    OversizeBeforeLength,
    /// The players are exchanged where the priorities are turned over.
    OwnersTurned,
    /// A converted table has each edge once.
    RepeatsDropped,

    /// A table that begins a longer buffer is refused.
    LongBufferRefused,
    /// An edge arrives in front of the others.
    ArrivesInFront,
    /// A leaving removes the first copy alone.
    OneCopyRemoved,
    /// The words that a shorter table gives up keep their content.
    FreedLeftOld,
    /// The order and the classes are those of the old table.
    OldClasses,
    /// The place of a bad target is the target.
    BadEndAsPlace,
    /// A vertex's last edge is found by counting its words.
    LastEdgeByWords,
    /// The room for an edge is judged before the edge.
    RoomBeforeEdge,

    /// A preview's second table is checked before the marks, spare and class words.
    TableBeforeMemory,
    /// A preview's second table has the first one's words before the edge is judged.
    CopiedBeforeEdge,
    /// A previewed edge needs room behind the first table too.
    RoomOfTheFirst,
    /// A preview copies the words behind the first table too.
    BeyondFromFirst,

    /// The refused entry counts as done.
    RefusedEntryCounted,
    /// The entries are told with acceptance alone.
    EntriesOnAcceptance,
    /// A refused entry takes those before it back.
    RefusedEntryUndoesAll,
    /// The order and the classes stay those of the start table.
    OrderOfTheStart,
    /// A doubled edge leaves copy by copy.
    ToggledByCopy,
    /// Zeros go to the end of the start table alone.
    ZerosToTheStart,
    /// A trace is judged before the lengths of the memory.
    TraceBeforeLengths,
    /// The order and the classes of the start table are written before the trace is judged.
    ClassesBeforeTrace,
    /// Words behind the entries of a trace are passed over.
    LongTraceAccepted,
    /// The target of an entry stands behind its source.
    EntriesInPairs,

    /// The governed relation is the pairs that the order has both ways.
    MutualPairsOfTheOrder,
    /// The reverse of a pair is tested under the marks that the pass has left so far.
    ReverseUnderLaterMarks,
    /// The governed classes are those of the order.
    ClassesOfTheOrder,
    /// The governed acceptor doesn't ask for the reverse of a mark.
    ReverseUnasked,
    /// It looks for unmarked reverses once no test fails.
    ReversesAfterTests,
    /// It names a pair whose reverse fails the test.
    ReverseTestedToo,

    /// The verdict call says "wins" for every plan that passes.
    WinsByAnyPlan,
    /// It says "wins" where the start class is below the vertex's.
    WinsFromBelow,
    /// It holds the start against the vertex itself.
    StartAtTheVertex,
    /// It checks the vertex after the lengths of the memory.
    VertexAfterLengths,
    /// It writes order, classes and reduction before it checks the vertex.
    WrittenBeforeVertex,
    /// It judges the plan on the game itself.
    JudgedOnTheGame,
    /// It takes order, classes and reduction back where the plan is refused.
    OldAfterPlan,
    /// It tells no counts with "not shown".
    NotShownUncounted,

    /// Numbers between two ranges have the kind of the range below.
    KindsWithoutGaps,
    /// The report drops a last half word.
    HalfWordDropped,
    /// The report reads tables of any length.
    ReportUnlimited,
    /// The report's first line counts the edges in the table.
    ReportByTable,
    /// The report's classes have their edges in the quotient.
    QuotientEdgesOfClass,
    /// The report's classes have the edges that lead to them.
    EdgesToClass,
    /// The report's classes have their lowest member alone.
    LowestMemberCounted,
    /// The report's totals leave the last class out.
    ClassLeftOut,

    /// A game of more than 512 vertices is refused by the check of solutions.
    LimitsKept,
    /// Its reader refuses a vertex without an edge, as the other reader does.
    EdgeAskedByReader,
    /// A move is the number of a successor, not of an edge.
    ChoiceAsTarget,
    /// Only chosen edges are kept, at the loser's vertices too.
    ChosenEdgesOnly,
    /// All edges are kept, at the winner's vertices too.
    WinnersEdgesAllKept,
    /// Kept edges are judged before it is known that each chosen edge is its vertex's own.
    LeavingBeforeStray,
    /// A kept edge to another winner is reported by its source.
    LeavingByVertex,
    /// A certificate longer than the game asks for is taken.
    LongCertificateTaken,
    /// The vertex at each place is judged, not the place of each vertex.
    MisplacedByPlace,
    /// A vertex of equal priority is over another, whoever wins there.
    EqualIsOver,
    /// A vertex of equal priority is never over another.
    EqualIsNotOver,
    /// Of the places whose runs fail the first is told.
    FirstRunTold,
    /// A run may be shorter than it could be.
    ShortRunTaken,
    /// A run of its own place alone may end before it.
    RunBackTaken,
    /// A kept edge may go up beyond the run of its source.
    RunsUnused,
    /// A kept edge may go up from a priority of the loser's to an equal one.
    EqualLetUp,

    /// The reduced game is refused with the game's numbers.
    ReducedAsGame,
    /// The reduced game is read before the game.
    ReducedFirst,
    /// The edges of a class must stand by ascending target too.
    TargetsAscend,
    /// An edge out of sequence is reported by the edge before it.
    DescentAsBefore,
    /// The number of classes' words is judged before the sequence of the reduced game's edges.
    ClassesBeforeRows,
    /// Classes beyond the last vertex are taken.
    LongClassesTaken,
    /// A vertex may have any priority of its class's parity.
    ParityCompared,
    /// A class may have no member.
    EmptyClassTaken,
    /// An image may have any source.
    ImageByTarget,
    /// An image may have any target.
    ImageBySource,
    /// A start may have any image of its row.
    StartWithin,
    /// The owner of each vertex must be its class's.
    OwnersAgree,
    /// The owner of a vertex may be another than its class's.
    OwnersDiffer,
    /// A vertex has a choice where it has several successors, of whatever class.
    ChoiceByVertex,
    /// The last edge of a row must have an edge after it too.
    AfterTheLast,
    /// The edge after another may have any source of the same class.
    AfterOfClass,
    /// The edge after another may have any later image of the row.
    AfterAnyLater,
}

impl Trap {
    /// The traps of the calls, those of document 01 first.
    pub const OF_CALLS: [Trap; 116] = [
        Trap::SomeMemberHasEdge,
        Trap::LittleBrothersByProse,
        Trap::MixedRowsExchanged,
        Trap::UnmarkDuringPass,
        Trap::SelfLoopsOnly,
        Trap::EndsBeforeOwners,
        Trap::EndsEdgeByEdge,
        Trap::RepeatRefused,
        Trap::RepeatsCounted,
        Trap::RepeatCountedApart,
        Trap::DifferentEverywhere,
        Trap::SinkAsWord,
        Trap::LongTableTaken,
        Trap::OneVertexMore,
        Trap::PassZeroMarksAll,
        Trap::LastPassUncounted,
        Trap::SpareLeftOld,
        Trap::BeyondCleared,
        Trap::OrderBeforeLengths,
        Trap::PassesEverywhere,
        Trap::CountsExchanged,
        Trap::HighestBitFirst,
        Trap::ByteForEachMark,
        Trap::LengthsRoundedDown,
        Trap::UnusedLeftOld,
        Trap::NextByteCleared,
        Trap::UnusedTaken,
        Trap::UnusedAtTheFirst,
        Trap::UnusedAsMark,
        Trap::BitsBeyondJudged,
        Trap::PairsBeforeUnused,
        Trap::UnequalPrioritiesPass,
        Trap::ClassesByHighest,
        Trap::OwnerOfHighest,
        Trap::LowestMemberDecides,
        Trap::OutputByResult,
        Trap::OutputByDifferent,
        Trap::RepeatWritten,
        Trap::TargetsDescending,
        Trap::TargetBeforeSource,
        Trap::LastTargetMissing,
        Trap::ReachableOnly,
        Trap::OneAnswerEnough,
        Trap::RepeatAsksTwice,
        Trap::OthersAsOdd,
        Trap::PlanUnlimited,
        Trap::LinkEndsFirst,
        Trap::LinkEndsTogether,
        Trap::HighestDecides,
        Trap::LowestOnWalk,
        Trap::PlayerFixed,
        Trap::LinksBeforeVertices,
        Trap::OwnExchangedForOdd,
        Trap::OrderNotTurnedForOdd,
        Trap::LastOwnLink,
        Trap::LastKeepingLink,
        Trap::HighestSuccessor,
        Trap::DepthFirst,
        Trap::RepeatGivesLinks,
        Trap::PlanBeforeLengths,
        Trap::OrderBeforePlan,
        Trap::OldAfterCarrying,
        Trap::OutputBeforeLength,
        Trap::LinksUnlimited,
        Trap::VertexAmongClasses,
        Trap::PlanOnQuotient,
        Trap::LengthBeforeRange,
        Trap::DrawnEdgesUnlimited,
        Trap::OwnerBeforePriority,
        Trap::LastVertexNoTarget,
        Trap::OldStateDrawn,
        Trap::LowHalfDrawn,
        Trap::HighestItself,
        Trap::EvenTooLarge,
        Trap::AnyOversize,
        Trap::OversizeAsVertex,
        Trap::OversizeBeforeLength,
        Trap::OwnersTurned,
        Trap::RepeatsDropped,
        Trap::LongBufferRefused,
        Trap::ArrivesInFront,
        Trap::OneCopyRemoved,
        Trap::FreedLeftOld,
        Trap::OldClasses,
        Trap::BadEndAsPlace,
        Trap::LastEdgeByWords,
        Trap::RoomBeforeEdge,
        Trap::TableBeforeMemory,
        Trap::CopiedBeforeEdge,
        Trap::RoomOfTheFirst,
        Trap::BeyondFromFirst,
        Trap::RefusedEntryCounted,
        Trap::EntriesOnAcceptance,
        Trap::RefusedEntryUndoesAll,
        Trap::OrderOfTheStart,
        Trap::ToggledByCopy,
        Trap::ZerosToTheStart,
        Trap::TraceBeforeLengths,
        Trap::ClassesBeforeTrace,
        Trap::LongTraceAccepted,
        Trap::EntriesInPairs,
        Trap::MutualPairsOfTheOrder,
        Trap::ReverseUnderLaterMarks,
        Trap::ClassesOfTheOrder,
        Trap::ReverseUnasked,
        Trap::ReversesAfterTests,
        Trap::ReverseTestedToo,
        Trap::WinsByAnyPlan,
        Trap::WinsFromBelow,
        Trap::StartAtTheVertex,
        Trap::VertexAfterLengths,
        Trap::WrittenBeforeVertex,
        Trap::JudgedOnTheGame,
        Trap::OldAfterPlan,
        Trap::NotShownUncounted,
        Trap::KindsWithoutGaps,
    ];

    /// The traps of the report program, which its own test tries.
    pub const OF_REPORT: [Trap; 7] = [
        Trap::HalfWordDropped,
        Trap::ReportUnlimited,
        Trap::ReportByTable,
        Trap::QuotientEdgesOfClass,
        Trap::EdgesToClass,
        Trap::LowestMemberCounted,
        Trap::ClassLeftOut,
    ];

    /// The traps of the check of solutions, which has tests of its own.
    pub const OF_LARGE: [Trap; 16] = [
        Trap::LimitsKept,
        Trap::EdgeAskedByReader,
        Trap::ChoiceAsTarget,
        Trap::ChosenEdgesOnly,
        Trap::WinnersEdgesAllKept,
        Trap::LeavingBeforeStray,
        Trap::LeavingByVertex,
        Trap::LongCertificateTaken,
        Trap::MisplacedByPlace,
        Trap::EqualIsOver,
        Trap::EqualIsNotOver,
        Trap::FirstRunTold,
        Trap::ShortRunTaken,
        Trap::RunBackTaken,
        Trap::RunsUnused,
        Trap::EqualLetUp,
    ];

    /// The traps of the check of reductions.
    pub const OF_REDUCTIONS: [Trap; 17] = [
        Trap::ReducedAsGame,
        Trap::ReducedFirst,
        Trap::TargetsAscend,
        Trap::DescentAsBefore,
        Trap::ClassesBeforeRows,
        Trap::LongClassesTaken,
        Trap::ParityCompared,
        Trap::EmptyClassTaken,
        Trap::ImageByTarget,
        Trap::ImageBySource,
        Trap::StartWithin,
        Trap::OwnersAgree,
        Trap::OwnersDiffer,
        Trap::ChoiceByVertex,
        Trap::AfterTheLast,
        Trap::AfterOfClass,
        Trap::AfterAnyLater,
    ];
}
