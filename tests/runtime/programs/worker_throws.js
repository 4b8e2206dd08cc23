'use strict';

const worker = new Worker('throws.js');
worker.onerror = ({ message, lineno }) => console.log(`error event: ${message}, line ${lineno}`);
