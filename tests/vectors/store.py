"""A model of what is kept of URLs within a bound, by the rule alone: a dict, two lists, of which the last used stands first, and
the set of URLs that stand for themselves. It knows nothing of trees, and serves as the oracle of random runs."""

MOST = 2 ** 64 - 1


def cut(url):
    """A URL without its query and its fragment."""
    return url.partition(b"?")[0].partition(b"#")[0]


class Store:
    """What is known of URLs: the value that was put last under each, or that it has none."""

    def __init__(self, most):
        self.known, self.most = {}, {"value": most, "none": most // 16}
        self.order = {"value": [], "none": []}
        self.own, self.are_all_own = set(), False
        self.hits = self.asked = self.dropped = 0

    def counted(self, kind):
        """For how many bytes the entries of a kind count."""
        return sum(self.known[url][2] for url in self.order[kind])

    def forget(self, url):
        if url in self.known:
            self.order[self.known.pop(url)[0]].remove(url)

    def forget_none(self):
        for url in list(self.order["none"]):
            self.forget(url)

    def own_up(self, url):
        """A URL that is cut for others stands for itself from now on; so do all where it has no room beside these."""
        if cut(url) != url and not self.are_all_own:
            with_it = self.own | {url}
            self.are_all_own = self.own_counted(with_it) > self.most["none"]
            self.own = self.own if self.are_all_own else with_it

    def own_counted(self, own):
        """For how many bytes URLs count that stand for themselves."""
        return sum(len(url) + 128 for url in own)

    def put(self, url, kind, what, count, until=None):
        """Puts a value, or why there is none, in the place of what there was; then the longest unused of its kind go."""
        self.own_up(url)
        self.forget(url)
        self.known[url] = kind, what, min(count + len(url) + 128, MOST), until
        self.order[kind].insert(0, url)
        while self.counted(kind) > self.most[kind] and len(self.order[kind]) > 1:
            self.forget(self.order[kind][-1])
            self.dropped += 1

    def key(self, url):
        """The URL under which the answer stands: this one, if it stands for itself, or else it without its query."""
        return url if self.are_all_own or url in self.own else cut(url)

    def answering(self, url, now):
        """This URL, where there is an answer; or None."""
        one = self.key(url)
        return one if one in self.known and (self.known[one][3] is None or now < self.known[one][3]) else None

    def peek(self, url, now):
        one = self.answering(url, now)
        return ("wanted", None) if one is None else self.known[one][:2]

    def ask(self, url, now):
        one = self.answering(url, now)
        self.asked += 1
        if one is not None:
            self.hits += 1
            order = self.order[self.known[one][0]]
            order.remove(one)
            order.insert(0, one)
        return self.peek(url, now)
