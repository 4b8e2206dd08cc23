// META: title=importScripts (HTML, 10.3.1)
'use strict';

importScripts('/resources/testharness.js');

test(() => {
  self.order = [];
  importScripts('resources/import_a.js', '/workers/resources/import_b.js');
  assert_array_equals(self.order, ['a', 'b']);
  assert_equals(importScripts(), undefined);
}, 'scripts run in order, before the call ends');

test(() => {
  self.order = [];
  const paths = ['resources/import_a.js', 'resources/missing.js', 'resources/import_b.js'];
  assert_throws_dom('NetworkError', () => importScripts(...paths));
  assert_array_equals(self.order, ['a']);
}, 'a script that is missing');

test(() => {
  self.order = [];
  assert_throws_dom('SyntaxError', () => importScripts('resources/import_a.js', 'http://['));
  assert_array_equals(self.order, []);
}, 'a URL that is none is refused before any script runs');

test(() => {
  assert_throws_js(SyntaxError, () => importScripts('resources/no_script.txt'));
  assert_throws_js(Error, () => importScripts('resources/throws.js'));
}, 'what a script throws is thrown');

test(() => {
  importScripts('resources/import_a.js');
  assert_equals(importedFunction(), 'imported');
  assert_equals(importedConstant, 12);
}, 'what a script declares is there');

test(() => {
  for (const name of ['self', 'location']) assert_true(name in WorkerGlobalScope.prototype);
  assert_throws_js(TypeError, () => { self.self = 1; });
  assert_throws_js(TypeError, () => new WorkerGlobalScope());
  assert_throws_js(TypeError, () => new DedicatedWorkerGlobalScope());
  assert_equals(String(self), '[object DedicatedWorkerGlobalScope]');
  assert_true(location instanceof WorkerLocation);
  assert_equals(String(location), location.href);
}, 'the interfaces of the scope');

test(() => {
  assert_throws_js(TypeError, () => postMessage());
  assert_throws_dom('DataCloneError', () => postMessage(self));
  assert_throws_dom('DataCloneError', () => postMessage(Symbol()));
}, 'what the scope can not post');

done();
