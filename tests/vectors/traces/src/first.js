import { fail } from './fail.js';

globalThis.first = {
  call(next) {
    return next ? next() : fail('the first piece');
  },
};
