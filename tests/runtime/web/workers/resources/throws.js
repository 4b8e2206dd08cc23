'use strict';

throw new Error('thrown at the start');
