// Objects to text and back, closures, expressions, numbers.
var table = { name: 'Ada', points: [97, 95.5, 1e21, -0.1], nested: { deep: [null, true] } };
var text = JSON.stringify(table);
print(text);
print(JSON.stringify(JSON.parse(text), null, 2));
print(text.replace(/[aeiou]/g, function (letter) { return letter.toUpperCase(); }));
print([5, 3, 9, 1].sort(function (a, b) { return a - b; }).map(function (n) { return n * n; }).join(' '));
print(Math.PI, Math.sin(1), 0.1 + 0.2, 1 / 3, parseInt('ff', 16), (255).toString(2));
try { null.field; } catch (e) { print(e.name); }
