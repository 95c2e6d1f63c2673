//! Faults that can be planted, to show that a test beside this register finds them.

/// A fault, and what the register does wrong by it.
#[derive(Clone, Copy, PartialEq, Eq, Debug)]
pub enum Fault {
    OneLineOnly,
    DeadLinesDivide,
    LivingParentTakesAll,
    SidesMixed,
    DecedentInherits,
    HalfBesideChildren,
    DeadSpouseInherits,
    SpouseOrHeir,
    NotInLowestTerms,
    HeirsAsTheyCome,
    OnePartTooFew,
    MultipleTooLarge,
    WidowWeds,
    PartedFromOneSide,
    FullBeforeParents,
    PlaceIsLength,
}

impl Fault {
    /// All faults, with what is wrong by each.
    pub const ALL: [(Fault, &'static str); 16] = [
        (Fault::OneLineOnly, "somebody on two lines is counted once"),
        (Fault::DeadLinesDivide, "a dead line takes its part, and leaves it to nobody"),
        (Fault::LivingParentTakesAll, "beside a living parent the line of the dead one has nothing"),
        (Fault::SidesMixed, "all lines of the grandparents are equal, whatever their side"),
        (Fault::DecedentInherits, "the decedent's own line inherits from the parents"),
        (Fault::HalfBesideChildren, "a spouse has a half beside children too"),
        (Fault::DeadSpouseInherits, "a dead spouse has a part"),
        (Fault::SpouseOrHeir, "a spouse who is an heir by a line has only the spouse's part"),
        (Fault::NotInLowestTerms, "shares are over the number of pieces, and not in lowest terms"),
        (Fault::HeirsAsTheyCome, "a spouse stands before the other heirs, and not by number"),
        (Fault::OnePartTooFew, "an estate of just 4,096 parts is refused"),
        (Fault::MultipleTooLarge, "an estate of just 2^32 pieces is answered"),
        (Fault::WidowWeds, "somebody whose spouse is dead weds again"),
        (Fault::PartedFromOneSide, "after a parting the other still has the spouse"),
        (Fault::FullBeforeParents, "in a full register a birth to a parent who is not there is refused by 6"),
        (Fault::PlaceIsLength, "the place of a row that is too long is its length"),
    ];
}
