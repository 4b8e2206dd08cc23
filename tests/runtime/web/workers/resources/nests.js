'use strict';

const inner = new Worker('echo.js');
inner.onmessage = ({ data }) => postMessage(data);
onmessage = ({ data }) => inner.postMessage(data);
