// META: title=DOMException (Web IDL, 2.8.1)
'use strict';

test(() => {
  const made = new DOMException();
  assert_array_equals([made.name, made.message, made.code], ['Error', '', 0]);
  const full = new DOMException('why', 'DataCloneError');
  assert_array_equals([full.name, full.message, full.code], ['DataCloneError', 'why', 25]);
  assert_equals(new DOMException(undefined, undefined).name, 'Error');
  assert_equals(String(full), 'DataCloneError: why');
  assert_equals(Object.prototype.toString.call(full), '[object DOMException]');
}, 'what it is made with');

test(() => {
  const made = new DOMException('', 'Unknown');
  assert_true(made instanceof DOMException && made instanceof Error);
  assert_equals(made.code, 0);
  assert_equals(Object.getPrototypeOf(DOMException.prototype), Error.prototype);
  assert_equals(Object.getPrototypeOf(DOMException), Function.prototype);
  assert_false(Object.prototype.hasOwnProperty.call(made, 'name'));
  assert_throws_js(TypeError, () => DOMException());
  assert_throws_js(TypeError, () => DOMException.prototype.name);
  assert_equals(DOMException.length, 0);
}, 'what it is');

test(() => {
  const codes = {
    IndexSizeError: 1, HierarchyRequestError: 3, WrongDocumentError: 4, InvalidCharacterError: 5,
    NoModificationAllowedError: 7, NotFoundError: 8, NotSupportedError: 9, InUseAttributeError: 10,
    InvalidStateError: 11, SyntaxError: 12, InvalidModificationError: 13, NamespaceError: 14,
    InvalidAccessError: 15, TypeMismatchError: 17, SecurityError: 18, NetworkError: 19,
    AbortError: 20, URLMismatchError: 21, QuotaExceededError: 22, TimeoutError: 23,
    InvalidNodeTypeError: 24, DataCloneError: 25, EncodingError: 0, NotReadableError: 0,
    UnknownError: 0, ConstraintError: 0, DataError: 0, TransactionInactiveError: 0,
    ReadOnlyError: 0, VersionError: 0, OperationError: 0, NotAllowedError: 0,
  };
  for (const name in codes) assert_equals(new DOMException('', name).code, codes[name], name);
}, 'the code of each name');

test(() => {
  const constants = {
    INDEX_SIZE_ERR: 1, DOMSTRING_SIZE_ERR: 2, NO_DATA_ALLOWED_ERR: 6, INUSE_ATTRIBUTE_ERR: 10,
    VALIDATION_ERR: 16, SECURITY_ERR: 18, URL_MISMATCH_ERR: 21, TIMEOUT_ERR: 23,
    INVALID_NODE_TYPE_ERR: 24, DATA_CLONE_ERR: 25,
  };
  for (const name in constants) {
    assert_equals(DOMException[name], constants[name]);
    assert_equals(DOMException.prototype[name], constants[name]);
    const found = Object.getOwnPropertyDescriptor(DOMException, name);
    assert_array_equals(
      [found.writable, found.enumerable, found.configurable], [false, true, false],
    );
  }
}, 'its constants');
