'use strict';
// A loader of webpack that hands on the map beside a module, composed with those beside its sources.
const fs = require('fs');
const path = require('path');
const { remapping } = require('smap');

module.exports = function (code, given) {
  const load = (source) => {
    const file = `${path.resolve(this.context, source)}.map`;
    return fs.existsSync(file) ? fs.readFileSync(file) : null;
  };
  const map = load(path.basename(this.resourcePath));
  this.callback(null, code, map ? remapping(map, load) : given);
};
