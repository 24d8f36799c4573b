'use strict';
// The functions of a text, by acorn's parse: each with the name that engines print, and what gives it.

const acorn = require('acorn');

function parsed(text) {
  const options = { ecmaVersion: 'latest', allowHashBang: true, allowReturnOutsideFunction: true };
  try {
    return acorn.parse(text, { ...options, sourceType: 'module' });
  } catch {
    return acorn.parse(text, { ...options, sourceType: 'script' });
  }
}

const isFunction = (node) => node.type === 'FunctionDeclaration' || node.type === 'FunctionExpression' || node.type === 'ArrowFunctionExpression';
const isClass = (node) => node.type === 'ClassDeclaration' || node.type === 'ClassExpression';
const keyOf = ({ key, computed }) => {
  if (key.type === 'Identifier' && !computed) return key.name;
  if (key.type === 'Literal') return String(key.value);
  return undefined;
};

// The name that a function or a class takes from what it stands in.
function given(node, parent) {
  if (parent === undefined) return {};
  const named = (target) => (target.type === 'Identifier' ? { name: target.name, how: 'variable', target: target.start } : {});
  switch (parent.type) {
    case 'VariableDeclarator': return parent.init === node ? named(parent.id) : {};
    case 'AssignmentPattern': return parent.right === node ? named(parent.left) : {};
    case 'AssignmentExpression':
      if (parent.right !== node || !['=', '||=', '&&=', '??='].includes(parent.operator)) return {};
      if (parent.left.type === 'MemberExpression' && !parent.left.computed) return { name: parent.left.property.name, how: 'property' };
      return named(parent.left);
    case 'Property': case 'PropertyDefinition': case 'MethodDefinition':
      return parent.value === node ? { name: keyOf(parent), how: 'property', kind: parent.kind } : {};
    case 'ExportDefaultDeclaration': return { name: 'default', how: 'default' };
    default: return {};
  }
}

// Each function: where it and its body begin and end, its name, what gives it, the variable that it is put into, and the places
// of its own code at which a frame may stand.
function functionsOf(text) {
  const all = [];
  all.classes = [];
  const visit = (node, parent, outer, within) => {
    let inside = outer;
    let around = within;
    if (isClass(node)) {
      const variable = given(node, parent);
      all.classes.push({ start: node.start, end: node.end, name: node.id?.name ?? variable.name });
      around = { node, parent, ...(node.id ? { name: node.id.name, how: 'own' } : variable), variable: variable.how === 'variable' ? variable.name : undefined };
    } else if (isFunction(node)) {
      const variable = given(node, parent);
      const own = node.id ? { name: node.id.name, how: 'own' } : variable;
      inside = { node, parent, start: node.start, end: node.end, ...own, variable: variable.how === 'variable' ? variable.name : undefined, places: [] };
      if (parent.type === 'MethodDefinition' && parent.kind === 'constructor') {
        Object.assign(inside, { name: within.name, how: within.how, variable: within.variable, ofClass: within.node });
      }
      if (parent.type === 'MethodDefinition' || (parent.type === 'Property' && (parent.method || parent.kind !== 'init'))) inside.start = parent.start;
      all.push(inside);
    } else if (node.type === 'StaticBlock' || (node.type === 'PropertyDefinition')) {
      inside = undefined;
    } else if (inside !== undefined && ['CallExpression', 'NewExpression', 'ThrowStatement', 'MemberExpression'].includes(node.type)) {
      inside.places.push(node.start);
      if (node.type === 'MemberExpression' && !node.computed) inside.places.push(node.property.start);
    }
    for (const key of Object.keys(node)) {
      const child = node[key];
      if (Array.isArray(child)) {
        for (const one of child) if (one && typeof one.type === 'string') visit(one, node, inside, around);
      } else if (child && typeof child.type === 'string') {
        // a computed key stands outside of its function, which it does here: the function is the value
        visit(child, node, inside, around);
      }
    }
  };
  visit(parsed(text), undefined, undefined, undefined);
  return all;
}

module.exports = { functionsOf };
