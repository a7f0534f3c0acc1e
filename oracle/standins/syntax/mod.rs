//! Nothing of the syntax is needed: form 1 files hold numbers, not text.
