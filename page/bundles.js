// Which bundle a URL names.
import { bundles, held } from './held.js';
import { fileOf } from './places.js';
export { bundleNamed, isNamed };

// A URL ends with the pieces of a name, whatever its query and its fragment.
function endsWith(url, name) {
  const path = `/${url.replace(/[?#].*$/, '').replaceAll('\\', '/')}`;
  return path.endsWith(`/${name}`);
}

// The name of a bundle, and the file that its map names where that is the name of no other bundle.
const files = bundles.map(({ record }) => (record.file ? fileOf(record.file) : ''));
const isSole = (file) => files.filter((other) => other === file).length === 1 && !bundles.some(({ name }) => endsWith(name, file));
const names = bundles.map(({ name }, i) => (files[i] && isSole(files[i]) ? [name, files[i]] : [name]));

// The bundle whose name is the longest that a URL ends with, of several alike that which is shown, or null.
function bundleNamed(url) {
  const length = (bundle) => Math.max(...names[bundle.index].map((name) => (endsWith(url, name) ? name.length : 0)));
  const most = Math.max(...bundles.map(length));
  if (most === 0) return null;
  return length(held()) === most ? held() : bundles.find((bundle) => length(bundle) === most);
}

const isNamed = (url) => bundleNamed(url) !== null;
