// The numbers of c/hivebasket.h that the page uses: sizes, refusals, and places in an answer.

export const LARGEST = 16777216; // bytes of a file, and of a shelf
export const SHELF_LEAST = 768, SHELF_FLIGHTS = 64, SHELF_ENTRY = 12;

export const ANSWER = 16, ENTRIES = 40, HEIGHTS = 2, TOLD = 12, RUN = 256, RECORD = 64, POINT = 6, LISTED_CODES = 15, WORDS = 400;

export const SHELF = 27, NOT_FOUND = 31;

// The letters of lines, as hive_kinds tells them. NOTE is an L line behind the last G line.
export const KIND = { A: 65, B: 66, C: 67, G: 71, H: 72, I: 73, L: 76, NOTE: 108 };
export const VALID = 65; // A: a fix in three dimensions
