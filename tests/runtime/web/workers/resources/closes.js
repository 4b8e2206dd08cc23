'use strict';

setTimeout(() => postMessage('a timer'), 0);
postMessage('before the close');
close();
postMessage('behind the close');
Promise.resolve().then(() => setTimeout(() => postMessage('later'), 0));
