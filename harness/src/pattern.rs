/// Appended behind the original's text where its feature `pattern` is on: stands in for
/// `std::str::pattern`, whose traits are as the original names them only in a nightly compiler of
/// its time. What is not used of them is left out.
pub mod pattern {
    pub enum SearchStep {
        Match(usize, usize),
        Reject(usize, usize),
        Done,
    }

    pub trait Pattern<'a> {
        type Searcher: Searcher<'a>;

        fn into_searcher(self, haystack: &'a str) -> Self::Searcher;
        fn is_prefix_of(self, haystack: &'a str) -> bool;
        fn is_suffix_of(self, haystack: &'a str) -> bool;
    }

    pub unsafe trait Searcher<'a> {
        fn haystack(&self) -> &'a str;
        fn next(&mut self) -> SearchStep;
        fn next_match(&mut self) -> Option<(usize, usize)>;
    }

    pub unsafe trait ReverseSearcher<'a>: Searcher<'a> {
        fn next_back(&mut self) -> SearchStep;
        fn next_match_back(&mut self) -> Option<(usize, usize)>;
    }
}
