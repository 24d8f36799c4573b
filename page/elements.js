// The elements of the page.
export { added, elementOf, isolated };

const elementOf = (id) => document.getElementById(id);

// An element of a class, put into another, with a text if one is given.
function added(parent, tag, className, text = '') {
  const element = Object.assign(document.createElement(tag), { className, textContent: text });
  parent.append(element);
  return element;
}

// A text whose direction is its own, in an element of a class.
function isolated(className, text) {
  const element = Object.assign(document.createElement('span'), { className });
  added(element, 'bdi', '', text);
  return element;
}
