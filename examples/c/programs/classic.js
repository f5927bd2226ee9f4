// ECMAScript 5 alone: numbers, closures, prototypes, exceptions, regular expressions, JSON, sorting.
function fibonacci(n) { return n < 2 ? n : fibonacci(n - 1) + fibonacci(n - 2); }
print(fibonacci(16), 0.1 + 0.2, 1 / 3, 1e21, 7 >>> 1, -7 >> 1, 5 % -3, parseInt("0x1f"), (255).toString(16), (2.5).toFixed(1));
function Shape(name) { this.name = name; }
Shape.prototype.told = function () { return this.name + ":" + this.area(); };
function Square(side) { Shape.call(this, "square"); this.side = side; }
Square.prototype = Object.create(Shape.prototype);
Square.prototype.area = function () { return this.side * this.side; };
print([1, 2, 3].map(function (n) { return new Square(n).told(); }).join(), new Square(1) instanceof Shape);
print("The quick brown fox".replace(/(\w+) (\w+)/g, "$2 $1"), "a-b_c".split(/[-_]/).length, /^(a+)b$/.test("aaaaab"), "äö".length);
var numbers = [];
for (var i = 0, state = 1; i < 90; i++) numbers.push(state = (state * 16807) % 2147483647);
print(numbers.sort(function (a, b) { return a - b; })[45], Math.max.apply(null, numbers), numbers.reduce(function (a, b) { return a + b; }));
try { null.field; } catch (error) { print(error instanceof TypeError, error.name); }
print(JSON.stringify(JSON.parse('{"a": [1, 2.5e3, {"b": null}], "c": "\\u00e9\\n"}')), Math.sqrt(2), Math.pow(2, 0.5));
(function deep(n) { if (n) deep(n - 1); else throw new RangeError("deep enough"); })(40);
