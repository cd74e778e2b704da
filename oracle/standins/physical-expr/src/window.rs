//! Window expressions: a frame, and for a window function the function behind it.

use std::any::Any;
use std::fmt::Debug;
use std::sync::Arc;

use datafusion_expr::WindowFrame;

pub trait WindowExpr: Debug + Send + Sync {
    fn as_any(&self) -> &dyn Any;

    fn get_window_frame(&self) -> &Arc<WindowFrame>;
}

/// The function of a [`StandardWindowExpr`].
pub trait StandardWindowFunctionExpr: Debug + Send + Sync {
    fn as_any(&self) -> &dyn Any;
}

/// An aggregate whose frame begins at the first row.
#[derive(Debug)]
pub struct PlainAggregateWindowExpr {
    frame: Arc<WindowFrame>,
}

/// An aggregate whose frame moves on.
#[derive(Debug)]
pub struct SlidingAggregateWindowExpr {
    frame: Arc<WindowFrame>,
}

/// A window function.
#[derive(Debug)]
pub struct StandardWindowExpr {
    function: Arc<dyn StandardWindowFunctionExpr>,
    frame: Arc<WindowFrame>,
}

impl PlainAggregateWindowExpr {
    pub fn new(frame: WindowFrame) -> Self {
        Self { frame: Arc::new(frame) }
    }
}

impl SlidingAggregateWindowExpr {
    pub fn new(frame: WindowFrame) -> Self {
        Self { frame: Arc::new(frame) }
    }
}

impl StandardWindowExpr {
    pub fn new(function: Arc<dyn StandardWindowFunctionExpr>, frame: WindowFrame) -> Self {
        Self { function, frame: Arc::new(frame) }
    }

    pub fn get_standard_func_expr(&self) -> &Arc<dyn StandardWindowFunctionExpr> {
        &self.function
    }
}

macro_rules! window_expr {
    ($($name:ty),*) => {$(
        impl WindowExpr for $name {
            fn as_any(&self) -> &dyn Any {
                self
            }

            fn get_window_frame(&self) -> &Arc<WindowFrame> {
                &self.frame
            }
        }
    )*};
}

window_expr!(PlainAggregateWindowExpr, SlidingAggregateWindowExpr, StandardWindowExpr);
