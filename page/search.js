// A search in what is in order.
export { firstWhere };

// The first number from `low` up to `high` of which the test, which is false first and then true, holds; `high` if there is none.
function firstWhere(low, high, test) {
  while (low < high) {
    const middle = (low + high) >>> 1;
    if (test(middle)) high = middle;
    else low = middle + 1;
  }
  return low;
}
