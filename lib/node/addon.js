'use strict';
// The addon for the processor of this machine. It serves the GNU C library and musl.
const { arch, platform } = process;
if (platform !== 'linux' || !['x64', 'arm64'].includes(arch)) {
  throw new Error(`smap serves Linux on x86-64 and ARM: this is ${platform} ${arch}`);
}
module.exports = require(`./smap.${arch}.node`);
