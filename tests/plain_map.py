"""What a store is to its callers: a map of live dockets to counts, prices and stamps, with no level, no slot and no merge inside."""


class PlainMap:
    def __init__(self):
        self.rows = {}   # docket -> (count, price, stamp)

    def change(self, letter, clock, *numbers):
        """An accepted timed call; flush and tick change nothing."""
        if letter == "P":
            docket, count, price = numbers
            self.rows[docket] = (count, price, clock)
        elif letter == "D":
            self.rows.pop(numbers[0], None)
        elif letter == "R":
            lo, hi = numbers
            self.rows = {docket: row for docket, row in self.rows.items() if not lo <= docket <= hi}
        elif letter == "Y":
            lo, hi, date = numbers
            self.rows = {docket: row for docket, row in self.rows.items() if not (lo <= docket <= hi and row[2] <= date)}

    def lookup(self, docket):
        """Found, count, price and stamp."""
        return (1, *self.rows[docket]) if docket in self.rows else (0, 0, 0, 0)

    def is_full(self, slots, docket):
        """Every slot holds a live docket, and this is none of them."""
        return len(self.rows) == slots and docket not in self.rows
