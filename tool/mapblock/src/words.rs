//! The numbers in plain words: what each means, and what whoever wrote the
//! block should mend. The desk reads them to people who never saw a varint.

/// The words of one number.
pub struct Words {
    number: u32,
    pub means: &'static str,
    pub mend: &'static str,
}

/// The words of a number with which a block is refused.
pub fn of(number: u32) -> &'static Words {
    let found = TABLE.iter().find(|words| words.number == number);
    found.unwrap_or(&UNKNOWN)
}

const TABLE: [Words; 14] = [
    Words {
        number: proved::BLOCK_TOO_LONG,
        means: "the block is longer than 32 MiB, the most that a camera reads",
        mend: "write the map in smaller blocks; the usual writers put at most 8,000 elements into one",
    },
    Words {
        number: proved::VARINT_CUT,
        means: "the bytes end in the middle of a number, or where one is due",
        mend: "write the block to its end, and make each length count all bytes of what it stands for",
    },
    Words {
        number: proved::VARINT_LONG,
        means: "a number is spelled in more than ten bytes",
        mend: "spell each number as a varint of at most ten bytes, the last one below 128",
    },
    Words {
        number: proved::TAG_VALUE,
        means: "a field has the number 0, or one that is too large for a field",
        mend: "give each field its number from osmformat.proto; none of them is 0",
    },
    Words {
        number: proved::WIRE_TYPE,
        means: "a field has a wire type that does not exist, or a group is closed that was not open",
        mend: "write wire types 0 to 5 only, and close each group with its own field number",
    },
    Words {
        number: proved::PAST_END,
        means: "a length or a fixed value reaches past the end of what it stands in",
        mend: "make each length count exactly the bytes behind it, and write the block to its end",
    },
    Words {
        number: proved::GROUP_DEPTH,
        means: "more than sixteen unknown groups stand inside one another",
        mend: "leave out the unknown groups (wire types 3 and 4); the format has none",
    },
    Words {
        number: proved::GRANULARITY,
        means: "the granularity or the date granularity is no 32-bit number",
        mend: "write granularity and date granularity as an int32; 100 and 1000 are usual",
    },
    Words {
        number: proved::SECOND_COLUMN,
        means: "a column stands twice in one message",
        mend: "write each column once, with all its values in one packed field",
    },
    Words {
        number: proved::SECOND_INFO,
        means: "an element or a dense message has two sets of metadata",
        mend: "write one Info for each element, and one DenseInfo for each dense message",
    },
    Words {
        number: proved::SECOND_DENSE,
        means: "a group has two dense messages",
        mend: "write all dense nodes of a group into one message, or begin a new group",
    },
    Words {
        number: proved::COUNTS,
        means: "columns that belong together have different numbers of values",
        mend: "write as many values into each of the columns that are named here",
    },
    Words {
        number: proved::NO_ROOM,
        means: "the buffer has no room for the tables behind the block",
        mend: "nothing in the block: lend a buffer of five times its length",
    },
    Words {
        number: proved::OUTSIDE,
        means: "something lies outside the buffer that was lent",
        mend: "nothing in the block: the program that reads it lends too little",
    },
];

const UNKNOWN: Words = Words {
    number: 0,
    means: "a number that this tool has no words for",
    mend: "ask for a tool that is as new as its library",
};

#[cfg(test)]
mod tests {
    use super::of;

    #[test]
    fn every_number_has_words_of_its_own() {
        let mut means: Vec<_> = (1..=15).map(|number| of(number).means).collect();
        means.sort_unstable();
        means.dedup();
        assert_eq!(means.len(), 15);
    }
}
