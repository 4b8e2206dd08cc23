'use strict';

setTimeout(() => console.log('the next task runs'), 0);
Promise.reject(new RangeError('rejected by the script'));
