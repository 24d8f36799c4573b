'use strict';
// A plugin of rollup that gives each module to several tools in turn, and of their maps makes one.
const { remapping } = require('smap');

module.exports = (...steps) => ({
  name: 'steps',
  async transform(code, id) {
    const maps = [];
    for (const step of steps) {
      const made = await step(code, id);
      code = made.code;
      maps.unshift(made.map);
    }
    return { code, map: remapping(maps, () => null) };
  },
});
