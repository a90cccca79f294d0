//! A second opinion: the FADC250 pulse finder, event writer, block reader and
//! lister, written again from document 01 ("the paper"), from ticket 1 of document
//! 02, and from the list of the C calls in `include/fadc250.h` ("the header"), and
//! from nothing else.  It shares no code with the library that it is compared with.
//!
//! | module     | what of the papers or of the header                     |
//! |------------|---------------------------------------------------------|
//! | `refusal`  | the refusals 1 to 16 and 19, and the header's 64        |
//! | `settings` | "Settings" and their 26 numbers                         |
//! | `finder`   | "Finding pulses"                                        |
//! | `words`    | "The words"                                             |
//! | `scalers`  | ticket 1's counts and their 38 numbers                  |
//! | `writer`   | "One event, one store" and the state's 72 numbers       |
//! | `reader`   | "Reading", word by word, and the scan's 6 numbers       |
//! | `items`    | "Reading", item by item, and the record's 6 numbers     |
//! | `lister`   | the lister's text                                       |
//! | `calls`    | the fifteen calls of the C side, over slices of numbers |
//! | `cases`    | seeded cases for a comparison program                   |

#![forbid(unsafe_code)]

pub mod calls;
pub mod cases;
pub mod finder;
pub mod items;
pub mod lister;
pub mod reader;
pub mod refusal;
pub mod scalers;
pub mod settings;
pub mod words;
pub mod writer;
