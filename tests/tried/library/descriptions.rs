//! Tests of `describe`: rows of git-describe by subject, texts and copies, lists of calls, and
//! calls whose memory or source fails.

mod cases;
mod early_ends;
mod formats;
mod hostile;
mod lists;
mod rows;
mod ties;
