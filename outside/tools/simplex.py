"""A linear program that grows by columns and rows, solved by the simplex method with the inverse of its basis, in
floats. What rests on its prices has to be found anew, exactly."""

# What counts as 0: of a reduced cost, and of a number to divide by.
SMALL_COST, SMALL = 1e-6, 1e-9
# How many steps one solving may take.
MOST_STEPS = 20_000


class Column:
    """A variable of at least 0: its cost, and its coefficients by their rows."""

    def __init__(self, cost, rows):
        self.cost, self.rows = cost, rows


class Program:
    """Seeks the least cost where each row's sum is its right side, or also more (`slack` -1) or less (`slack` 1). A row
    that doesn't hold yet is filled up at a great cost."""

    def __init__(self, great):
        self.great, self.columns, self.right = great, [], []
        # The columns of the basis with their values, a row of the inverse for each, and the prices of the rows.
        self.basis, self.values, self.inverse, self.prices = [], [], [], []

    def add_column(self, cost, rows):
        self.columns.append(Column(cost, rows))
        return self.columns[-1]

    def add_row(self, right, slack, coefficients):
        """Adds a row with the coefficients of some columns."""
        row = len(self.right)
        for column, coefficient in coefficients:
            column.rows[row] = coefficient
        own = [column.rows.get(row, 0) for column in self.basis]
        rest = right - sum(coefficient * value for coefficient, value in zip(own, self.values))
        filler = Column(self.great, {row: 1 if rest >= 0 else -1})
        if slack:
            filler = self.add_column(0, {row: slack}) if rest * slack >= 0 else filler
            if filler.cost:
                self.add_column(0, {row: slack})
        sign = filler.rows[row]
        last = [-sum(own[k] * line[i] for k, line in enumerate(self.inverse) if own[k]) / sign for i in range(row)]
        for line in self.inverse:
            line.append(0.0)
        self.right.append(right)
        self.basis.append(filler)
        self.values.append(rest / sign)
        self.inverse.append(last + [1 / sign])
        self.find_prices()

    def find_prices(self):
        """The prices of the rows, by the basis."""
        self.prices = [0.0] * len(self.right)
        for column, line in zip(self.basis, self.inverse):
            if column.cost:
                self.prices = [price + column.cost * part for price, part in zip(self.prices, line)]

    def reduced(self, column):
        """A column's cost less what the rows pay for it."""
        return column.cost - sum(coefficient * self.prices[row] for row, coefficient in column.rows.items())

    def solve(self):
        """Takes columns into the basis until none lowers the cost. Answers the cost."""
        self.find_prices()
        for _ in range(MOST_STEPS):
            cost, column = min(((self.reduced(column), place) for place, column in enumerate(self.columns)),
                               default=(0, 0))
            if cost >= -SMALL_COST:
                break
            if not self.enter(self.columns[column], cost):
                break
        return sum(column.cost * value for column, value in zip(self.basis, self.values))

    def enter(self, column, cost):
        """Takes a column into the basis; answers whether one could go."""
        ways = [sum(coefficient * line[row] for row, coefficient in column.rows.items()) for line in self.inverse]
        steps = [(max(0.0, value) / way, -way, k)
                 for k, (value, way) in enumerate(zip(self.values, ways)) if way > SMALL]
        if not steps:
            return False
        step, _, out = min(steps)
        line = self.inverse[out] = [part / ways[out] for part in self.inverse[out]]
        for k, way in enumerate(ways):
            if k != out and abs(way) > SMALL:
                self.values[k] -= way * step
                self.inverse[k] = [part - way * own for part, own in zip(self.inverse[k], line)]
        self.basis[out], self.values[out] = column, step
        self.prices = [price + cost * part for price, part in zip(self.prices, line)]
        return True

    def lacking(self):
        """How much is filled up at a great cost."""
        return sum(value for column, value in zip(self.basis, self.values) if column.cost == self.great)
