if (typeof order !== 'undefined') order.push('a');
var importedFunction = () => 'imported';
if (!('importedConstant' in self)) self.importedConstant = 12;
