function f() { throw new Error('a place'); }
seen('a place', () => f());
seen('a place', f);
if (true) seen('a place', function () { eval('f()'); });
